package java.util.concurrent;

/** Thrown where the result of a task is asked for that was cancelled. */
public class CancellationException extends IllegalStateException {
    public CancellationException() {
    }

    public CancellationException(String message) {
        super(message);
    }
}
