// accepted
/** An exception is made with a message. */
final class HasMessage {
    public static void main(String[] args) {
        throw new RuntimeException("message");
    }
}
