/*
 * Strings and output: `print` of an `int`, `print` and `println` of a `char`, and `println` of nothing
 *
 * It works.
 */
class PrintChars {
    public static void main(String[] words) {
        System.out.print(7);
        System.out.print(':');
        System.out.println('x');
        System.out.println();
    }
}
