package java.lang;

/** A class is used whose initialisation failed (JVMS 5.5). */
public class NoClassDefFoundError extends LinkageError {
    public NoClassDefFoundError() {}

    public NoClassDefFoundError(String message) {}
}
