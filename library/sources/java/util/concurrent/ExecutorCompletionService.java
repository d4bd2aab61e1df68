package java.util.concurrent;

/** A completion service over an executor: futures are put into a queue when they are done. */
public class ExecutorCompletionService<V> implements CompletionService<V> {
    private final Executor executor;
    private final BlockingQueue<Future<V>> done;

    public ExecutorCompletionService(Executor executor) {
        this(executor, new LinkedBlockingQueue<Future<V>>());
    }

    public ExecutorCompletionService(Executor executor, BlockingQueue<Future<V>> done) {
        if (executor == null || done == null) {
            throw new NullPointerException();
        }
        this.executor = executor;
        this.done = done;
    }

    public Future<V> submit(Callable<V> task) {
        FutureTask<V> future = new QueuedTask<V>(task, done);
        executor.execute(future);
        return future;
    }

    public Future<V> submit(Runnable task, V result) {
        return submit(Executors.callable(task, result));
    }

    public Future<V> take() throws InterruptedException {
        return done.take();
    }

    public Future<V> poll() {
        return done.poll();
    }

    static final class QueuedTask<V> extends FutureTask<V> {
        private final BlockingQueue<Future<V>> queue;

        QueuedTask(Callable<V> task, BlockingQueue<Future<V>> queue) {
            super(task);
            this.queue = queue;
        }

        protected void done() {
            queue.add(this);
        }
    }
}
