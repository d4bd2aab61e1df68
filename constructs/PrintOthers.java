/*
 * Strings and output: `printf`
 *
 * PrintOthers.java:11: the class java.lang.Integer, of boxing, or of a method of it: take int, char or boolean, or a
 *     class of your own
 * PrintOthers.java:11: java.io.PrintStream.printf(java.lang.String, java.lang.Object[]): System.out prints ints, chars,
 *     booleans, arrays of chars and objects, and nothing else; print these
 */
class PrintOthers {
    public static void main(String[] words) {
        System.out.printf("%d", 7);
    }
}
