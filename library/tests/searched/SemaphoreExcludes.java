import java.util.concurrent.Semaphore;

/** A semaphore of one permit is a lock. */
class SemaphoreExcludes {
    static void print(int number) {
        System.out.println(number);
    }

    static void print(boolean is) {
        System.out.println(is ? 1 : 0);
    }

    public static void main(String[] args) throws Exception {
        final Semaphore permit = new Semaphore(1);
        final int[] count = new int[1];
        Thread one = new Thread() {
            public void run() {
                permit.acquireUninterruptibly();
                count[0]++;
                permit.release();
            }
        };
        one.start();
        permit.acquire();
        count[0]++;
        permit.release();
        one.join();
        print(count[0]);
        print(permit.availablePermits());
    }
}
