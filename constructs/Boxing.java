/*
 * Types and operators: `Integer` and its kin: boxing and unboxing
 *
 * Boxing.java:11: the class java.lang.Integer, of boxing, or of a method of it: take int, char or boolean, or a class
 *     of your own
 * Boxing.java:12: the class java.lang.Boolean, of boxing, or of a method of it: take int, char or boolean, or a class
 *     of your own
 */
class Boxing {
    public static void main(String[] words) {
        Integer boxed = 7;
        Object flag = true;
        System.out.println(boxed);
    }
}
