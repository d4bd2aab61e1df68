import java.util.concurrent.locks.Condition;
import java.util.concurrent.locks.ReentrantLock;

/** A thread waits on a condition until another one has set a value; no signal is lost. */
class ConditionSignals {
    static void print(int number) {
        System.out.println(number);
    }

    static void print(boolean is) {
        System.out.println(is ? 1 : 0);
    }

    public static void main(String[] args) throws Exception {
        final ReentrantLock lock = new ReentrantLock();
        final Condition isSet = lock.newCondition();
        final int[] value = new int[1];
        Thread one = new Thread() {
            public void run() {
                lock.lock();
                value[0] = 7;
                isSet.signal();
                lock.unlock();
            }
        };
        one.start();
        lock.lock();
        while (value[0] == 0) {
            isSet.await();
        }
        print(value[0]);
        lock.unlock();
    }
}
