/*
 * Strings and output: `System.out.println` of an `int`
 *
 * It works.
 */
class PrintInt {
    public static void main(String[] words) {
        System.out.println(7);
    }
}
