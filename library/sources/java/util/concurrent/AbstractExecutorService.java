package java.util.concurrent;

import java.util.ArrayList;
import java.util.Collection;
import java.util.Iterator;
import java.util.List;

/** What an executor service has by `execute` alone. `invokeAny` tries the tasks one after another. */
public abstract class AbstractExecutorService implements ExecutorService {
    public AbstractExecutorService() {
    }

    protected <T> RunnableFuture<T> newTaskFor(Callable<T> task) {
        return new FutureTask<T>(task);
    }

    protected <T> RunnableFuture<T> newTaskFor(Runnable task, T result) {
        return new FutureTask<T>(task, result);
    }

    public <T> Future<T> submit(Callable<T> task) {
        RunnableFuture<T> future = newTaskFor(task);
        execute(future);
        return future;
    }

    public <T> Future<T> submit(Runnable task, T result) {
        RunnableFuture<T> future = newTaskFor(task, result);
        execute(future);
        return future;
    }

    public Future<?> submit(Runnable task) {
        return submit(task, (Object) null);
    }

    public <T> List<Future<T>> invokeAll(Collection<? extends Callable<T>> tasks) throws InterruptedException {
        List<Future<T>> futures = new ArrayList<Future<T>>(tasks.size());
        for (Iterator<? extends Callable<T>> each = tasks.iterator(); each.hasNext();) {
            futures.add(submit(each.next()));
        }
        for (int at = 0; at < futures.size(); at++) {
            await(futures.get(at));
        }
        return futures;
    }

    private static void await(Future<?> future) throws InterruptedException {
        try {
            future.get();
        } catch (ExecutionException failed) {
            return;
        } catch (CancellationException cancelled) {
            return;
        }
    }

    public <T> T invokeAny(Collection<? extends Callable<T>> tasks) throws InterruptedException, ExecutionException {
        ExecutionException last = null;
        for (Iterator<? extends Callable<T>> each = tasks.iterator(); each.hasNext();) {
            try {
                return submit(each.next()).get();
            } catch (ExecutionException failed) {
                last = failed;
            }
        }
        if (last == null) {
            throw new IllegalArgumentException();
        }
        throw last;
    }
}
