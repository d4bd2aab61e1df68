import java.util.concurrent.locks.Condition;
import java.util.concurrent.locks.ReentrantLock;

/** One that waits on a condition is interrupted or signalled; the signal isn't lost. */
class ConditionInterrupted {
    static void print(int number) {
        System.out.println(number);
    }

    static void print(boolean is) {
        System.out.println(is ? 1 : 0);
    }

    public static void main(String[] args) throws Exception {
        final ReentrantLock lock = new ReentrantLock();
        final Condition condition = lock.newCondition();
        final int[] how = new int[1];
        Thread one = new Thread() {
            public void run() {
                lock.lock();
                try {
                    condition.await();
                    how[0] = isInterrupted() ? 2 : 1;
                } catch (InterruptedException interrupted) {
                    how[0] = 3;
                }
                lock.unlock();
            }
        };
        one.start();
        lock.lock();
        condition.signal();
        lock.unlock();
        one.interrupt();
        one.join();
        print(how[0]);
        print(lock.isLocked());
    }
}
