package java.util.concurrent;

/**
 * A task whose result can be waited for.
 *
 * It runs once; all that wait for its result are woken when it is there. `cancel` before the end wins over the
 * result, and interrupts the thread that runs the task where it may. Left out: times.
 */
public class FutureTask<V> implements RunnableFuture<V> {
    private static final int NEW = 0;
    private static final int RUNNING = 1;
    private static final int DONE = 2;
    private static final int FAILED = 3;
    private static final int CANCELLED = 4;

    private final Callable<V> task;
    private int state = NEW;
    private V result;
    private Throwable cause;
    private Thread runner;

    public FutureTask(Callable<V> task) {
        if (task == null) {
            throw new NullPointerException();
        }
        this.task = task;
    }

    public FutureTask(Runnable task, V result) {
        this(Executors.callable(task, result));
    }

    private synchronized boolean begins() {
        if (state != NEW) {
            return false;
        }
        state = RUNNING;
        runner = Thread.currentThread();
        return true;
    }

    private synchronized void ends(int state, V result, Throwable cause) {
        if (this.state > RUNNING) {
            return;
        }
        this.result = result;
        this.cause = cause;
        this.state = state;
        runner = null;
        notifyAll();
        done();
    }

    public void run() {
        if (!begins()) {
            return;
        }
        try {
            set(task.call());
        } catch (Throwable thrown) {
            setException(thrown);
        }
    }

    protected void set(V result) {
        ends(DONE, result, null);
    }

    protected void setException(Throwable cause) {
        ends(FAILED, null, cause);
    }

    /** Called when it is done, failed or cancelled, under its lock. */
    protected void done() {
    }

    public synchronized boolean cancel(boolean mayInterrupt) {
        if (state > RUNNING) {
            return false;
        }
        Thread running = runner;
        if (mayInterrupt && running != null) {
            running.interrupt();
        }
        ends(CANCELLED, null, null);
        return true;
    }

    public synchronized boolean isCancelled() {
        return state == CANCELLED;
    }

    public synchronized boolean isDone() {
        return state > RUNNING;
    }

    public synchronized V get() throws InterruptedException, ExecutionException {
        while (state <= RUNNING) {
            wait();
        }
        if (state == CANCELLED) {
            throw new CancellationException();
        }
        if (state == FAILED) {
            throw new ExecutionException(cause);
        }
        return result;
    }
}
