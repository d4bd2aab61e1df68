package java.util.concurrent;

/** The result of a task, which may still be to come. Left out: times. */
public interface Future<V> {
    boolean cancel(boolean mayInterrupt);

    boolean isCancelled();

    boolean isDone();

    V get() throws InterruptedException, ExecutionException;
}
