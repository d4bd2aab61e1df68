import java.util.concurrent.Semaphore;

/** A semaphore that isn't fair may be taken again by the thread that gave it, before one that waits; never below 0. */
class SemaphoreAgain {
    public static void main(String[] args) throws Exception {
        final Semaphore permit = new Semaphore(1);
        Thread one = new Thread() {
            public void run() {
                permit.acquireUninterruptibly();
                permit.release();
                permit.acquireUninterruptibly();
            }
        };
        one.start();
        permit.acquire();
        System.out.println(permit.availablePermits());
        permit.release();
        one.join();
    }
}
