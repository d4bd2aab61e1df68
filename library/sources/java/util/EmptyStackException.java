package java.util;

/** Thrown where the top of an empty stack is asked for. */
public class EmptyStackException extends RuntimeException {
    public EmptyStackException() {
    }
}
