package java.util.concurrent;

/** A future whose `run` brings about its result. */
public interface RunnableFuture<V> extends Runnable, Future<V> {
    void run();
}
