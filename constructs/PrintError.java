/*
 * Strings and output: `System.err`, whose text stands between that of `System.out`
 *
 * It works.
 */
class PrintError {
    public static void main(String[] words) {
        System.err.println(7);
    }
}
