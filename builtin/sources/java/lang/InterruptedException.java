package java.lang;

/** A thread was interrupted while it waited (JLS 17.2.3). */
public class InterruptedException extends Exception {
    public InterruptedException() {}

    public InterruptedException(String message) {}
}
