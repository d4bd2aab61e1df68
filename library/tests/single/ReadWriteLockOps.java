import java.util.concurrent.locks.Condition;
import java.util.concurrent.locks.ReentrantReadWriteLock;

/** ReentrantReadWriteLock, by one thread. */
class ReadWriteLockOps {
    static void print(int number) {
        System.out.println(number);
    }

    static void print(boolean is) {
        System.out.println(is ? 1 : 0);
    }

    public static void main(String[] args) throws Exception {
        ReentrantReadWriteLock lock = new ReentrantReadWriteLock();
        lock.readLock().lock();
        lock.readLock().lock();
        print(lock.getReadLockCount());
        print(lock.writeLock().tryLock());
        lock.readLock().unlock();
        lock.readLock().unlock();
        print(lock.writeLock().tryLock());
        lock.writeLock().lock();
        print(lock.getWriteHoldCount());
        print(lock.isWriteLockedByCurrentThread());
        print(lock.readLock().tryLock());
        lock.writeLock().unlock();
        lock.writeLock().unlock();
        print(lock.isWriteLocked());
        print(lock.getReadLockCount());
        lock.readLock().unlock();
        try {
            lock.readLock().unlock();
        } catch (IllegalMonitorStateException free) {
            print(-1);
        }
        try {
            lock.writeLock().unlock();
        } catch (IllegalMonitorStateException free) {
            print(-2);
        }
        try {
            lock.readLock().newCondition();
        } catch (UnsupportedOperationException none) {
            print(-3);
        }
        Condition condition = lock.writeLock().newCondition();
        try {
            condition.signalAll();
        } catch (IllegalMonitorStateException free) {
            print(-4);
        }
        lock.writeLock().lock();
        condition.signal();
        print(lock.writeLock().getHoldCount());
    }
}
