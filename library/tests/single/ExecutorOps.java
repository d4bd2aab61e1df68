import java.util.concurrent.Callable;
import java.util.concurrent.Executors;
import java.util.concurrent.ExecutorService;
import java.util.concurrent.ExecutionException;
import java.util.concurrent.Future;
import java.util.concurrent.RejectedExecutionException;
import java.util.concurrent.ExecutorCompletionService;
import java.util.concurrent.CompletionService;
import java.util.List;
import java.util.ArrayList;

/** Executors with one thread at a time. */
class ExecutorOps {
    static class Square implements Callable<Integer> {
        final int number;

        Square(int number) {
            this.number = number;
        }

        public Integer call() {
            if (number < 0) {
                throw new IllegalArgumentException();
            }
            return number * number;
        }
    }

    static void print(int number) {
        System.out.println(number);
    }

    static void print(boolean is) {
        System.out.println(is ? 1 : 0);
    }

    public static void main(String[] args) throws Exception {
        ExecutorService pool = Executors.newSingleThreadExecutor();
        List<Callable<Integer>> tasks = new ArrayList<Callable<Integer>>();
        for (int at = 0; at < 3; at++) {
            tasks.add(new Square(at));
        }
        for (Future<Integer> each : pool.invokeAll(tasks)) {
            print(each.get());
        }
        print(pool.invokeAny(tasks.subList(2, 3)));
        Future<Integer> fails = pool.submit(new Square(-1));
        try {
            fails.get();
        } catch (ExecutionException failed) {
            print(failed.getCause() instanceof IllegalArgumentException);
        }
        Runnable nothing = new Runnable() {
            public void run() {
            }
        };
        print(pool.submit(nothing, 8).get());
        print(pool.submit(nothing).get() == null);
        CompletionService<Integer> service = new ExecutorCompletionService<Integer>(pool);
        service.submit(new Square(5));
        service.submit(new Square(6));
        print(service.take().get());
        print(service.take().get());
        print(service.poll() == null);
        print(pool.isShutdown());
        pool.shutdown();
        print(pool.isShutdown());
        try {
            pool.execute(nothing);
        } catch (RejectedExecutionException late) {
            print(-1);
        }
        ExecutorService cached = Executors.newCachedThreadPool();
        print(cached.submit(new Square(9)).get());
        print(cached.shutdownNow().size());
        print(Executors.callable(nothing, 4).call());
    }
}
