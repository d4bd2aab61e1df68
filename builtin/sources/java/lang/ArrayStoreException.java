package java.lang;

/** An element is not of the type of its array (JVMS 6.5 aastore). */
public class ArrayStoreException extends RuntimeException {
    public ArrayStoreException() {}

    public ArrayStoreException(String message) {}
}
