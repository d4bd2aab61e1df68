// accepted
/** A String is printed. */
final class PrintsText {
    public static void main(String[] args) {
        System.out.println("text");
    }
}
