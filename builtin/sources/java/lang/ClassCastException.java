package java.lang;

/** An object is not of the type that is asked for (JVMS 6.5 checkcast). */
public class ClassCastException extends RuntimeException {
    public ClassCastException() {}

    public ClassCastException(String message) {}
}
