import java.util.ArrayList;
import java.util.List;
import java.util.concurrent.Callable;
import java.util.concurrent.ExecutionException;
import java.util.concurrent.ExecutorService;
import java.util.concurrent.Executors;
import java.util.concurrent.Future;

/** invokeAll over tasks one of which fails. */
class InvokeAll {
    public static void main(String[] args) throws Exception {
        ExecutorService pool = Executors.newFixedThreadPool(2);
        List<Callable<Integer>> tasks = new ArrayList<Callable<Integer>>();
        for (int i = 0; i < 4; i++) {
            final int number = i;
            tasks.add(new Callable<Integer>() {
                public Integer call() throws Exception {
                    return 12 / (number - 2);
                }
            });
        }
        for (Future<Integer> future : pool.invokeAll(tasks)) {
            try {
                System.out.println((int) future.get());
            } catch (ExecutionException e) {
                System.out.println(e.getCause() instanceof ArithmeticException ? 100 : 200);
            }
        }
        pool.shutdown();
    }
}
