package java.lang;

/** An assertion that fails (JLS 14.10). */
public class AssertionError extends Error {
    public AssertionError() {}

    public AssertionError(String message, Throwable cause) {}

    public AssertionError(Object detail) {
        super(String.valueOf(detail));
        if (detail instanceof Throwable) {
            initCause((Throwable) detail);
        }
    }

    public AssertionError(boolean detail) {
        super(String.valueOf(detail));
    }

    public AssertionError(char detail) {
        super(String.valueOf(detail));
    }

    public AssertionError(int detail) {
        super(String.valueOf(detail));
    }
}
