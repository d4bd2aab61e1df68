import java.util.concurrent.atomic.AtomicInteger;

/** Three threads count by an AtomicInteger, one by compareAndSet in a loop. */
class AtomicCounter {
    public static void main(String[] args) throws Exception {
        final AtomicInteger count = new AtomicInteger();
        Thread[] threads = new Thread[3];
        for (int i = 0; i < threads.length; i++) {
            final boolean loops = i == 0;
            threads[i] = new Thread() {
                public void run() {
                    for (int j = 0; j < 20; j++) {
                        if (loops) {
                            int old;
                            do {
                                old = count.get();
                            } while (!count.compareAndSet(old, old + 1));
                        } else {
                            count.incrementAndGet();
                        }
                    }
                }
            };
            threads[i].start();
        }
        for (Thread thread : threads) {
            thread.join();
        }
        System.out.println(count.get());
    }
}
