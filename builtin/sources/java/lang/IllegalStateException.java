package java.lang;

/** An object is not in a state for what is asked of it. */
public class IllegalStateException extends RuntimeException {
    public IllegalStateException() {}

    public IllegalStateException(String message) {}

    public IllegalStateException(String message, Throwable cause) {}

    public IllegalStateException(Throwable cause) {
        super(cause);
    }
}
