import java.util.concurrent.Callable;
import java.util.concurrent.CompletionService;
import java.util.concurrent.ExecutorCompletionService;
import java.util.concurrent.ExecutorService;
import java.util.concurrent.Executors;

/** Results are taken in the order in which they are done, and added. */
class FirstDone {
    public static void main(String[] args) throws Exception {
        ExecutorService pool = Executors.newCachedThreadPool();
        CompletionService<Integer> service = new ExecutorCompletionService<Integer>(pool);
        for (int i = 1; i <= 3; i++) {
            final int number = i;
            service.submit(new Callable<Integer>() {
                public Integer call() {
                    return number * number;
                }
            });
        }
        int sum = 0;
        for (int i = 0; i < 3; i++) {
            sum += service.take().get();
        }
        pool.shutdown();
        System.out.println(sum);
    }
}
