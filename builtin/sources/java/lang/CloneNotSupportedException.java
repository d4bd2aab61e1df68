package java.lang;

/** An object may not be cloned. */
public class CloneNotSupportedException extends Exception {
    public CloneNotSupportedException() {}

    public CloneNotSupportedException(String message) {}
}
