/*
 * Types and operators: `int[].class` and `int.class`
 *
 * ArrayClassLiteral.java:10: int[].class: there is no reflection; lock another object
 * ArrayClassLiteral.java:11: the class java.lang.Integer, of boxing, or of a method of it: take int, char or
 *     boolean, or a class of your own
 */
class ArrayClassLiteral {
    public static void main(String[] words) {
        Object ofArrays = int[].class;
        Object ofInts = int.class;
    }
}
