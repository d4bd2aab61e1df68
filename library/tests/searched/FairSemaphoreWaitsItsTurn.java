import java.util.concurrent.Semaphore;

/** A fair one doesn't let a small request pass a large one that waits, so both may wait for ever. */
class FairSemaphoreWaitsItsTurn {
    static void print(int number) {
        System.out.println(number);
    }

    static void print(boolean is) {
        System.out.println(is ? 1 : 0);
    }

    public static void main(String[] args) throws Exception {
        final Semaphore permits = new Semaphore(1, true);
        Thread one = new Thread() {
            public void run() {
                permits.acquireUninterruptibly(2);
                print(2);
                permits.release(2);
            }
        };
        one.start();
        permits.acquire();
        print(1);
        permits.release(2);
        one.join();
        print(permits.availablePermits());
    }
}
