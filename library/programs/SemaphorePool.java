import java.util.concurrent.Semaphore;
import java.util.concurrent.atomic.AtomicInteger;

/** Five threads share two places: never more than two are in. */
class SemaphorePool {
    public static void main(String[] args) throws Exception {
        final Semaphore places = new Semaphore(2);
        final AtomicInteger inside = new AtomicInteger();
        final AtomicInteger tooMany = new AtomicInteger();
        Thread[] threads = new Thread[5];
        for (int i = 0; i < threads.length; i++) {
            threads[i] = new Thread() {
                public void run() {
                    try {
                        places.acquire();
                    } catch (InterruptedException e) {
                        return;
                    }
                    try {
                        if (inside.incrementAndGet() > 2) {
                            tooMany.incrementAndGet();
                        }
                        inside.decrementAndGet();
                    } finally {
                        places.release();
                    }
                }
            };
            threads[i].start();
        }
        for (Thread thread : threads) {
            thread.join();
        }
        System.out.println(tooMany.get());
        System.out.println(places.availablePermits());
    }
}
