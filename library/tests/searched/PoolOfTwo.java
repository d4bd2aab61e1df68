import java.util.concurrent.ExecutorService;
import java.util.concurrent.Executors;

/** A pool of two threads runs two tasks in one of two orders, and both end. */
class PoolOfTwo {
    static class Printing implements Runnable {
        final int number;

        Printing(int number) {
            this.number = number;
        }

        public void run() {
            print(number);
        }
    }

    static void print(int number) {
        System.out.println(number);
    }

    static void print(boolean is) {
        System.out.println(is ? 1 : 0);
    }

    public static void main(String[] args) throws Exception {
        ExecutorService pool = Executors.newFixedThreadPool(2);
        pool.execute(new Printing(1));
        pool.execute(new Printing(2));
        pool.shutdown();
    }
}
