import java.util.concurrent.Semaphore;

/** Semaphore, by one thread. */
class SemaphoreOps {
    static void print(int number) {
        System.out.println(number);
    }

    static void print(boolean is) {
        System.out.println(is ? 1 : 0);
    }

    public static void main(String[] args) throws Exception {
        Semaphore plain = new Semaphore(2);
        Semaphore fair = new Semaphore(2, true);
        print(fair.isFair());
        Semaphore[] both = {plain, fair};
        for (int at = 0; at < 2; at++) {
            Semaphore one = both[at];
            one.acquire();
            print(one.availablePermits());
            print(one.tryAcquire(2));
            print(one.tryAcquire());
            print(one.tryAcquire());
            one.release(3);
            one.acquireUninterruptibly(2);
            print(one.availablePermits());
            one.release();
            print(one.drainPermits());
            print(one.availablePermits());
            Thread.currentThread().interrupt();
            try {
                one.acquire();
            } catch (InterruptedException interrupted) {
                print(-1);
            }
            try {
                one.acquire(-1);
            } catch (IllegalArgumentException negative) {
                print(-2);
            }
        }
        Semaphore owed = new Semaphore(-1);
        owed.release();
        print(owed.tryAcquire());
    }
}
