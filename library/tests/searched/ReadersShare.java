import java.util.concurrent.locks.ReentrantReadWriteLock;

/** Two readers are in at once, and a writer alone. */
class ReadersShare {
    static void print(int number) {
        System.out.println(number);
    }

    static void print(boolean is) {
        System.out.println(is ? 1 : 0);
    }

    public static void main(String[] args) throws Exception {
        final ReentrantReadWriteLock lock = new ReentrantReadWriteLock();
        final int[] value = new int[2];
        Thread one = new Thread() {
            public void run() {
                lock.writeLock().lock();
                value[0]++;
                value[1]++;
                lock.writeLock().unlock();
            }
        };
        one.start();
        lock.readLock().lock();
        print(value[0] - value[1]);
        lock.readLock().unlock();
        one.join();
        print(value[0]);
    }
}
