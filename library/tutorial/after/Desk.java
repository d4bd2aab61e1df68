import java.util.concurrent.ArrayBlockingQueue;
import java.util.concurrent.locks.ReentrantLock;

class Desk extends Thread {
    static final ArrayBlockingQueue<Integer> orders = new ArrayBlockingQueue<Integer>(1);
    static final ReentrantLock lock = new ReentrantLock();
    static int open;

    public void run() {
        try {
            for (int order = 1; order <= 3; order++) {
                lock.lock();
                try {
                    open++;
                } finally {
                    lock.unlock();
                }
                orders.put(order);
            }
        } catch (InterruptedException stopped) {
            // no more orders
        }
    }

    public static void main(String[] args) throws InterruptedException {
        new Desk().start();
        int sum = 0;
        for (int served = 0; served < 3; served++) {
            int order = orders.take();
            lock.lock();
            try {
                open--;
                sum += order;
            } finally {
                lock.unlock();
            }
        }
        System.out.println(sum);
        System.out.println(open);
    }
}
