import java.util.concurrent.locks.ReentrantLock;

/** One that waits for a lock interruptibly is interrupted, or gets it. */
class LockInterrupted {
    static void print(int number) {
        System.out.println(number);
    }

    static void print(boolean is) {
        System.out.println(is ? 1 : 0);
    }

    public static void main(String[] args) throws Exception {
        final ReentrantLock lock = new ReentrantLock();
        final int[] how = new int[1];
        Thread one = new Thread() {
            public void run() {
                try {
                    lock.lockInterruptibly();
                    how[0] = 1;
                    lock.unlock();
                } catch (InterruptedException interrupted) {
                    how[0] = 2;
                }
            }
        };
        lock.lock();
        one.start();
        one.interrupt();
        lock.unlock();
        one.join();
        print(how[0]);
    }
}
