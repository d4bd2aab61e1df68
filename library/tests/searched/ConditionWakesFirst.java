import java.util.concurrent.locks.Condition;
import java.util.concurrent.locks.ReentrantLock;

/** A condition wakes the thread that has waited longest. */
class ConditionWakesFirst {
    static final ReentrantLock lock = new ReentrantLock();
    static final Condition first = lock.newCondition();
    static final Condition turn = lock.newCondition();

    static class Waiting extends Thread {
        final int number;

        Waiting(int number) {
            this.number = number;
        }

        public void run() {
            lock.lock();
            turn.signal();
            first.awaitUninterruptibly();
            print(number);
            lock.unlock();
        }
    }

    static void print(int number) {
        System.out.println(number);
    }

    static void print(boolean is) {
        System.out.println(is ? 1 : 0);
    }

    public static void main(String[] args) throws Exception {
        Waiting one = new Waiting(1);
        lock.lock();
        one.start();
        turn.awaitUninterruptibly();
        Waiting two = new Waiting(2);
        two.start();
        turn.awaitUninterruptibly();
        first.signal();
        lock.unlock();
        one.join();
        lock.lock();
        first.signal();
        lock.unlock();
        two.join();
    }
}
