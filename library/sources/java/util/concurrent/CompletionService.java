package java.util.concurrent;

/** Takes tasks, and gives their futures as they are done. Left out: times. */
public interface CompletionService<V> {
    Future<V> submit(Callable<V> task);

    Future<V> submit(Runnable task, V result);

    Future<V> take() throws InterruptedException;

    Future<V> poll();
}
