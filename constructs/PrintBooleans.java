/*
 * Strings and output: `System.out.print` and `println` of a boolean
 *
 * It works.
 */
class PrintBooleans {
    public static void main(String[] words) {
        System.out.print(words.length == 0);
        System.out.println(false);
    }
}
