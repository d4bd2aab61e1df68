package java.lang;

/** The initialisation of a class ended with what is no Error (JVMS 5.5). */
public class ExceptionInInitializerError extends LinkageError {
    public ExceptionInInitializerError() {}

    public ExceptionInInitializerError(String message) {}

    public ExceptionInInitializerError(Throwable exception) {
        super(null, exception);
    }

    public Throwable getException() {
        return super.getCause();
    }
}
