// accepted
/** Texts are put together by a StringBuilder. */
final class HasConcatenation {
    static String text;

    public static void main(String[] args) {
        text = "length " + args.length;
    }
}
