package java.lang;

/** A class does not fit another one (JVMS 5.4). */
public class LinkageError extends Error {
    public LinkageError() {}

    public LinkageError(String message) {}

    public LinkageError(String message, Throwable cause) {}
}
