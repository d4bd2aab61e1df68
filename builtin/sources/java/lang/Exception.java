package java.lang;

/** What programs may recover from (JLS 11.1.1). */
public class Exception extends Throwable {
    public Exception() {}

    public Exception(String message) {}

    public Exception(String message, Throwable cause) {}

    public Exception(Throwable cause) {
        super(cause);
    }
}
