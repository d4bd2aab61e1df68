/*
 * Strings and output: `Integer.parseInt`
 *
 * ParseInt.java:9: the class java.lang.Integer, of boxing, or of a method of it: take int, char or boolean, or a
 *     class of your own
 */
class ParseInt {
    public static void main(String[] words) {
        System.out.println(Integer.parseInt("7"));
    }
}
