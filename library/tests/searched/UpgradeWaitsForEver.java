import java.util.concurrent.locks.ReentrantReadWriteLock;

/** A reader that takes the write lock, too, waits for ever. */
class UpgradeWaitsForEver {
    static void print(int number) {
        System.out.println(number);
    }

    static void print(boolean is) {
        System.out.println(is ? 1 : 0);
    }

    public static void main(String[] args) throws Exception {
        ReentrantReadWriteLock lock = new ReentrantReadWriteLock();
        lock.readLock().lock();
        print(1);
        lock.writeLock().lock();
        print(2);
    }
}
