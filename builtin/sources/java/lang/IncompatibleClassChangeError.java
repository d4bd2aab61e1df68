package java.lang;

/** A receiver is not of the interface that a call names (JVMS 6.5 invokeinterface). */
public class IncompatibleClassChangeError extends LinkageError {
    public IncompatibleClassChangeError() {}

    public IncompatibleClassChangeError(String message) {}
}
