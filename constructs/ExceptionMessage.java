/*
 * Exceptions: an exception with a message, and with a message and a cause
 *
 * It works.
 */
class ExceptionMessage extends Exception {
    ExceptionMessage(String message) {
        super(message);
    }

    static void close(int door) throws ExceptionMessage {
        if (door == 7) {
            throw new ExceptionMessage("door ".concat(String.valueOf(door)));
        }
    }

    public static void main(String[] words) {
        try {
            close(7);
        } catch (ExceptionMessage thrown) {
            throw new IllegalStateException("closed", thrown);
        }
    }
}
