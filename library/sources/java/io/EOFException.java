package java.io;

/** For an input that ended too early. Nothing here throws it by itself. */
public class EOFException extends IOException {
    public EOFException() {
    }

    public EOFException(String message) {
        super(message);
    }
}
