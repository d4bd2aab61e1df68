import java.util.concurrent.locks.Condition;
import java.util.concurrent.locks.Lock;
import java.util.concurrent.locks.ReentrantLock;

/** A bounded buffer of one's own, with a lock and two conditions. */
class ConditionBuffer {
    static class Buffer {
        final Lock lock = new ReentrantLock();
        final Condition notFull = lock.newCondition();
        final Condition notEmpty = lock.newCondition();
        final int[] items = new int[2];
        int putAt, takeAt, count;

        void put(int item) throws InterruptedException {
            lock.lock();
            try {
                while (count == items.length) {
                    notFull.await();
                }
                items[putAt] = item;
                putAt = (putAt + 1) % items.length;
                count++;
                notEmpty.signal();
            } finally {
                lock.unlock();
            }
        }

        int take() throws InterruptedException {
            lock.lock();
            try {
                while (count == 0) {
                    notEmpty.await();
                }
                int item = items[takeAt];
                takeAt = (takeAt + 1) % items.length;
                count--;
                notFull.signal();
                return item;
            } finally {
                lock.unlock();
            }
        }
    }

    public static void main(String[] args) throws Exception {
        final Buffer buffer = new Buffer();
        Thread producer = new Thread() {
            public void run() {
                try {
                    for (int i = 0; i < 6; i++) {
                        buffer.put(i);
                    }
                } catch (InterruptedException e) {
                    System.out.println(-1);
                }
            }
        };
        producer.start();
        for (int i = 0; i < 6; i++) {
            System.out.println(buffer.take());
        }
    }
}
