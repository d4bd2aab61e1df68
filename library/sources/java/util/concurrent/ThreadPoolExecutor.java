package java.util.concurrent;

import java.util.ArrayList;
import java.util.List;

/**
 * Threads that run tasks, as Executors makes them: the constructors with times are left out.
 *
 * A task gets a thread of its own while there are fewer than the core, and beyond that where none is idle and
 * there may be more; else it waits in a queue, first in, first out. An idle thread waits for a task, and ends when
 * the pool is shut down; which idle one is woken the schedule says. Where a task throws, its thread ends and
 * another one takes its place.
 */
public class ThreadPoolExecutor extends AbstractExecutorService {
    static final class Task {
        final Runnable task;
        Task next;

        Task(Runnable task) {
            this.task = task;
        }
    }

    static final class Worker implements Runnable {
        private final ThreadPoolExecutor pool;
        private Runnable task;
        Thread thread;
        Worker next;

        Worker(ThreadPoolExecutor pool, Runnable task) {
            this.pool = pool;
            this.task = task;
        }

        public void run() {
            boolean isDone = false;
            try {
                for (Runnable each = first(); each != null; each = pool.next(this)) {
                    each.run();
                }
                isDone = true;
            } finally {
                if (!isDone) {
                    pool.failed(this);
                }
            }
        }

        private Runnable first() {
            Runnable first = task;
            task = null;
            return first != null ? first : pool.next(this);
        }
    }

    private final int core;
    private final int most;
    private final ThreadFactory factory;
    private Task first;
    private Task last;
    private int queued;
    private int idle;
    private int size;
    private Worker workers;
    private boolean isShutdown;

    ThreadPoolExecutor(int core, int most, ThreadFactory factory) {
        if (most <= 0) {
            throw new IllegalArgumentException();
        }
        if (factory == null) {
            throw new NullPointerException();
        }
        this.core = core;
        this.most = most;
        this.factory = factory;
    }

    public void execute(Runnable task) {
        if (task == null) {
            throw new NullPointerException();
        }
        Thread made = null;
        synchronized (this) {
            if (isShutdown) {
                throw new RejectedExecutionException();
            }
            if (size < core || size < most && idle <= queued) {
                made = begun(task);
            } else {
                enqueue(task);
                notify();
            }
        }
        if (made != null) {
            made.start();
        }
    }

    private Thread begun(Runnable task) {
        Worker worker = new Worker(this, task);
        worker.thread = factory.newThread(worker);
        worker.next = workers;
        workers = worker;
        size++;
        return worker.thread;
    }

    private void enqueue(Runnable task) {
        Task one = new Task(task);
        if (first == null) {
            first = one;
        } else {
            last.next = one;
        }
        last = one;
        queued++;
    }

    private Runnable dequeue() {
        Runnable task = first.task;
        first = first.next;
        queued--;
        return task;
    }

    /** The next task of a worker; null where there will be none. */
    synchronized Runnable next(Worker worker) {
        while (first == null) {
            if (isShutdown) {
                remove(worker);
                return null;
            }
            idle++;
            try {
                wait();
            } catch (InterruptedException interrupted) {
                // One that came too late for a task.
            }
            idle--;
        }
        return dequeue();
    }

    private void remove(Worker worker) {
        size--;
        if (workers == worker) {
            workers = worker.next;
            return;
        }
        Worker before = workers;
        while (before.next != worker) {
            before = before.next;
        }
        before.next = worker.next;
    }

    void failed(Worker worker) {
        Thread made = null;
        synchronized (this) {
            remove(worker);
            if (first != null || !isShutdown) {
                made = begun(null);
            }
        }
        if (made != null) {
            made.start();
        }
    }

    public synchronized void shutdown() {
        isShutdown = true;
        notifyAll();
    }

    public synchronized List<Runnable> shutdownNow() {
        List<Runnable> left = new ArrayList<Runnable>();
        while (first != null) {
            left.add(dequeue());
        }
        isShutdown = true;
        for (Worker worker = workers; worker != null; worker = worker.next) {
            worker.thread.interrupt();
        }
        notifyAll();
        return left;
    }

    public synchronized boolean isShutdown() {
        return isShutdown;
    }

    public synchronized boolean isTerminated() {
        return isShutdown && size == 0;
    }

    public synchronized int getPoolSize() {
        return size;
    }

    public int getCorePoolSize() {
        return core;
    }

    public int getMaximumPoolSize() {
        return most;
    }
}
