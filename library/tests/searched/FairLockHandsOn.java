import java.util.concurrent.locks.ReentrantLock;

/** A fair lock is handed on to the thread that waits. */
class FairLockHandsOn {
    static void print(int number) {
        System.out.println(number);
    }

    static void print(boolean is) {
        System.out.println(is ? 1 : 0);
    }

    public static void main(String[] args) throws Exception {
        final ReentrantLock lock = new ReentrantLock(true);
        final int[] count = new int[1];
        Thread one = new Thread() {
            public void run() {
                lock.lock();
                count[0] = count[0] * 10 + 1;
                lock.unlock();
            }
        };
        lock.lock();
        one.start();
        count[0] = count[0] * 10 + 2;
        lock.unlock();
        lock.lock();
        count[0] = count[0] * 10 + 3;
        lock.unlock();
        one.join();
        print(count[0]);
    }
}
