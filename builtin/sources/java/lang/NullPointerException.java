package java.lang;

/** Null stands where an object is needed (JVMS 6.5 getfield). */
public class NullPointerException extends RuntimeException {
    public NullPointerException() {}

    public NullPointerException(String message) {}
}
