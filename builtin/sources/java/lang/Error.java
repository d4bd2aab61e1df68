package java.lang;

/** What programs are not expected to recover from (JLS 11.1.1). */
public class Error extends Throwable {
    public Error() {}

    public Error(String message) {}

    public Error(String message, Throwable cause) {}

    public Error(Throwable cause) {
        super(cause);
    }
}
