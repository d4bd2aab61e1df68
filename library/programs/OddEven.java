import java.util.concurrent.locks.Condition;
import java.util.concurrent.locks.ReentrantLock;

/** Odd and even numbers in order, by one lock and a condition. */
class OddEven {
    static final ReentrantLock lock = new ReentrantLock();
    static final Condition changed = lock.newCondition();
    static int next = 1;

    static class Turn implements Runnable {
        private final int rest;

        Turn(int rest) {
            this.rest = rest;
        }

        public void run() {
            lock.lock();
            try {
                while (next <= 10) {
                    if (next % 2 == rest) {
                        System.out.println(next++);
                        changed.signalAll();
                    } else {
                        changed.awaitUninterruptibly();
                    }
                }
            } finally {
                lock.unlock();
            }
        }
    }

    public static void main(String[] args) throws Exception {
        Thread odd = new Thread(new Turn(1));
        Thread even = new Thread(new Turn(0));
        odd.start();
        even.start();
        odd.join();
        even.join();
    }
}
