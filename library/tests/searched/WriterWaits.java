import java.util.concurrent.locks.ReentrantReadWriteLock;

/** A writer waits for a reader, who may read on. */
class WriterWaits {
    static void print(int number) {
        System.out.println(number);
    }

    static void print(boolean is) {
        System.out.println(is ? 1 : 0);
    }

    public static void main(String[] args) throws Exception {
        final ReentrantReadWriteLock lock = new ReentrantReadWriteLock();
        Thread one = new Thread() {
            public void run() {
                lock.writeLock().lock();
                print(3);
                lock.writeLock().unlock();
            }
        };
        lock.readLock().lock();
        one.start();
        print(1);
        lock.readLock().lock();
        print(2);
        lock.readLock().unlock();
        lock.readLock().unlock();
        one.join();
    }
}
