import java.util.concurrent.Callable;
import java.util.concurrent.ConcurrentHashMap;
import java.util.concurrent.ConcurrentMap;
import java.util.concurrent.Future;
import java.util.concurrent.FutureTask;
import java.util.concurrent.atomic.AtomicInteger;

/** A cache of futures: each value is computed once. */
class Memoizer {
    static final ConcurrentMap<Integer, Future<Integer>> cache = new ConcurrentHashMap<Integer, Future<Integer>>();
    static final AtomicInteger computed = new AtomicInteger();
    static final AtomicInteger sum = new AtomicInteger();

    static int value(final int key) throws Exception {
        Future<Integer> future = cache.get(key);
        if (future == null) {
            FutureTask<Integer> task = new FutureTask<Integer>(new Callable<Integer>() {
                public Integer call() {
                    computed.incrementAndGet();
                    return key * key;
                }
            });
            future = cache.putIfAbsent(key, task);
            if (future == null) {
                future = task;
                task.run();
            }
        }
        return future.get();
    }

    public static void main(String[] args) throws Exception {
        Thread[] threads = new Thread[3];
        for (int t = 0; t < 3; t++) {
            threads[t] = new Thread() {
                public void run() {
                    try {
                        sum.addAndGet(value(5) + value(6));
                    } catch (Exception e) {
                        System.out.println(-1);
                    }
                }
            };
            threads[t].start();
        }
        for (Thread thread : threads) {
            thread.join();
        }
        System.out.println(sum.get());
        System.out.println(computed.get());
    }
}
