import java.util.ArrayList;
import java.util.List;
import java.util.concurrent.Callable;
import java.util.concurrent.ExecutorService;
import java.util.concurrent.Executors;
import java.util.concurrent.Future;

/** A pool adds up parts of an array; the futures are added. */
class PoolSum {
    public static void main(String[] args) throws Exception {
        final int[] numbers = new int[40];
        for (int i = 0; i < numbers.length; i++) {
            numbers[i] = i;
        }
        ExecutorService pool = Executors.newFixedThreadPool(3);
        List<Future<Integer>> parts = new ArrayList<Future<Integer>>();
        for (int i = 0; i < 4; i++) {
            final int from = i * 10;
            parts.add(pool.submit(new Callable<Integer>() {
                public Integer call() {
                    int sum = 0;
                    for (int at = from; at < from + 10; at++) {
                        sum += numbers[at];
                    }
                    return sum;
                }
            }));
        }
        int total = 0;
        for (Future<Integer> part : parts) {
            total += part.get();
        }
        pool.shutdown();
        System.out.println(total);
    }
}
