package java.util.concurrent;

/** What a wait for a time would throw. Nothing here waits for a time, so only a program itself throws it. */
public class TimeoutException extends Exception {
    public TimeoutException() {
    }

    public TimeoutException(String message) {
        super(message);
    }
}
