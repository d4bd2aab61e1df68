/*
 * Strings and output: `print` and `println` of a `String`
 *
 * It works.
 */
class PrintStrings {
    public static void main(String[] words) {
        String word = "seven";
        System.out.print("It is ");
        System.out.println(word);
    }
}
