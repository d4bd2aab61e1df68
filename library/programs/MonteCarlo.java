import java.util.Random;
import java.util.concurrent.Callable;
import java.util.concurrent.ExecutorService;
import java.util.concurrent.Executors;
import java.util.concurrent.Future;

/** Threads with a generator of their own draw points; java's generator has the same numbers. */
class MonteCarlo {
    public static void main(String[] args) throws Exception {
        ExecutorService pool = Executors.newFixedThreadPool(2);
        Callable<Integer> drawing = new Callable<Integer>() {
            public Integer call() {
                Random random = new Random();
                int inside = 0;
                for (int i = 0; i < 60; i++) {
                    int x = random.nextInt(1000);
                    int y = random.nextInt(1000);
                    if (x * x + y * y < 1000000) {
                        inside++;
                    }
                }
                return inside;
            }
        };
        Future<Integer> one = pool.submit(drawing);
        Future<Integer> two = pool.submit(drawing);
        System.out.println(one.get() + two.get());
        pool.shutdown();
    }
}
