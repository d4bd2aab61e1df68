import java.util.concurrent.locks.ReentrantLock;

/** Two threads add under a ReentrantLock: nothing is lost. */
class LockExcludes {
    static void print(int number) {
        System.out.println(number);
    }

    static void print(boolean is) {
        System.out.println(is ? 1 : 0);
    }

    public static void main(String[] args) throws Exception {
        final ReentrantLock lock = new ReentrantLock();
        final int[] count = new int[1];
        Thread one = new Thread() {
            public void run() {
                lock.lock();
                count[0]++;
                lock.unlock();
            }
        };
        one.start();
        lock.lock();
        count[0]++;
        lock.unlock();
        one.join();
        print(count[0]);
    }
}
