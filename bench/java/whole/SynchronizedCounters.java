/** Three threads that count by synchronized methods, each on a counter of its own and on one of all. */
public class SynchronizedCounters extends Thread {
    static class Counter {
        private int count;

        synchronized void add(int amount) {
            count += amount;
        }

        synchronized int get() {
            return count;
        }
    }

    static final Counter ALL = new Counter();
    final Counter own = new Counter();

    public void run() {
        for (int i = 0; i < 100000; i++) {
            own.add(i & 3);
            ALL.add(1);
        }
    }

    public static void main(String[] words) throws InterruptedException {
        SynchronizedCounters[] threads = new SynchronizedCounters[3];
        for (int i = 0; i < threads.length; i++) {
            threads[i] = new SynchronizedCounters();
            threads[i].start();
        }
        int own = 0;
        for (int i = 0; i < threads.length; i++) {
            threads[i].join();
            own += threads[i].own.get();
        }
        System.out.println(ALL.get());
        System.out.println(own);
    }
}
