import java.util.concurrent.locks.ReentrantLock;

/** tryLock doesn't wait. */
class TryLockFails {
    static void print(int number) {
        System.out.println(number);
    }

    static void print(boolean is) {
        System.out.println(is ? 1 : 0);
    }

    public static void main(String[] args) throws Exception {
        final ReentrantLock lock = new ReentrantLock();
        final boolean[] got = new boolean[1];
        Thread one = new Thread() {
            public void run() {
                got[0] = lock.tryLock();
            }
        };
        lock.lock();
        one.start();
        lock.unlock();
        one.join();
        print(got[0]);
        print(lock.isLocked());
    }
}
