package java.util.concurrent;

/** Thrown by a barrier that one of its threads has left before all were there. */
public class BrokenBarrierException extends Exception {
    public BrokenBarrierException() {
    }

    public BrokenBarrierException(String message) {
        super(message);
    }
}
