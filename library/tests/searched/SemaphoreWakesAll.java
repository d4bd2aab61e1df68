import java.util.concurrent.Semaphore;

/** A release of two permits wakes two that wait. */
class SemaphoreWakesAll {
    static void print(int number) {
        System.out.println(number);
    }

    static void print(boolean is) {
        System.out.println(is ? 1 : 0);
    }

    public static void main(String[] args) throws Exception {
        final Semaphore permits = new Semaphore(0);
        Thread one = new Thread() {
            public void run() {
                permits.acquireUninterruptibly();
            }
        };
        Thread two = new Thread() {
            public void run() {
                permits.acquireUninterruptibly();
            }
        };
        one.start();
        two.start();
        permits.release(2);
        one.join();
        two.join();
        print(permits.availablePermits());
    }
}
