/*
 * Newer than Java 8: a text block
 *
 * javac refuses it.
 */
class TextBlock {
    static String text = """
        seven
        """;

    public static void main(String[] words) {
        System.out.println(7);
    }
}
