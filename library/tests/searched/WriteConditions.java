import java.util.concurrent.locks.Condition;
import java.util.concurrent.locks.ReentrantReadWriteLock;

/** A condition of a write lock. */
class WriteConditions {
    static void print(int number) {
        System.out.println(number);
    }

    static void print(boolean is) {
        System.out.println(is ? 1 : 0);
    }

    public static void main(String[] args) throws Exception {
        final ReentrantReadWriteLock lock = new ReentrantReadWriteLock();
        final Condition isSet = lock.writeLock().newCondition();
        final int[] value = new int[1];
        Thread one = new Thread() {
            public void run() {
                lock.writeLock().lock();
                value[0] = 4;
                isSet.signalAll();
                lock.writeLock().unlock();
            }
        };
        one.start();
        lock.writeLock().lock();
        while (value[0] == 0) {
            isSet.await();
        }
        lock.writeLock().unlock();
        print(value[0]);
    }
}
