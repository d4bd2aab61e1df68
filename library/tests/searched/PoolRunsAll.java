import java.util.concurrent.ExecutorService;
import java.util.concurrent.Executors;

/** A pool of one thread runs two tasks in their order, and ends. */
class PoolRunsAll {
    static class Printing implements Runnable {
        final int number;

        Printing(int number) {
            this.number = number;
        }

        public void run() {
            print(number);
        }
    }

    static void print(int number) {
        System.out.println(number);
    }

    static void print(boolean is) {
        System.out.println(is ? 1 : 0);
    }

    public static void main(String[] args) throws Exception {
        ExecutorService pool = Executors.newFixedThreadPool(1);
        pool.execute(new Printing(1));
        pool.execute(new Printing(2));
        pool.shutdown();
    }
}
