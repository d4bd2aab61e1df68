package java.lang;

/** An exception that need not be declared (JLS 11.1.1). */
public class RuntimeException extends Exception {
    public RuntimeException() {}

    public RuntimeException(String message) {}

    public RuntimeException(String message, Throwable cause) {}

    public RuntimeException(Throwable cause) {
        super(cause);
    }
}
