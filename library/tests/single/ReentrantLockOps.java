import java.util.concurrent.locks.Condition;
import java.util.concurrent.locks.ReentrantLock;

/** ReentrantLock and its conditions, by one thread. */
class ReentrantLockOps {
    static void print(int number) {
        System.out.println(number);
    }

    static void print(boolean is) {
        System.out.println(is ? 1 : 0);
    }

    public static void main(String[] args) throws Exception {
        ReentrantLock lock = new ReentrantLock();
        ReentrantLock fair = new ReentrantLock(true);
        print(lock.isFair());
        print(fair.isFair());
        ReentrantLock[] both = {lock, fair};
        for (int at = 0; at < 2; at++) {
            ReentrantLock one = both[at];
            print(one.isLocked());
            one.lock();
            one.lockInterruptibly();
            print(one.tryLock());
            print(one.getHoldCount());
            print(one.isHeldByCurrentThread());
            one.unlock();
            one.unlock();
            print(one.isLocked());
            one.unlock();
            print(one.isLocked());
            try {
                one.unlock();
            } catch (IllegalMonitorStateException free) {
                print(-1);
            }
            Condition condition = one.newCondition();
            try {
                condition.signal();
            } catch (IllegalMonitorStateException free) {
                print(-2);
            }
            try {
                condition.await();
            } catch (IllegalMonitorStateException free) {
                print(-3);
            }
            one.lock();
            condition.signal();
            condition.signalAll();
            print(one.hasWaiters(condition));
            Thread.currentThread().interrupt();
            try {
                condition.await();
            } catch (InterruptedException interrupted) {
                print(-4);
            }
            print(one.getHoldCount());
            one.unlock();
            Thread.currentThread().interrupt();
            try {
                one.lockInterruptibly();
            } catch (InterruptedException interrupted) {
                print(-5);
            }
            print(one.hasQueuedThreads());
        }
    }
}
