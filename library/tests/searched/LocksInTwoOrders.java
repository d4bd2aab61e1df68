import java.util.concurrent.locks.ReentrantLock;

/** Two locks that are taken in two orders: a deadlock is found. */
class LocksInTwoOrders {
    static void print(int number) {
        System.out.println(number);
    }

    static void print(boolean is) {
        System.out.println(is ? 1 : 0);
    }

    public static void main(String[] args) throws Exception {
        final ReentrantLock a = new ReentrantLock();
        final ReentrantLock b = new ReentrantLock();
        Thread one = new Thread() {
            public void run() {
                b.lock();
                a.lock();
                a.unlock();
                b.unlock();
            }
        };
        one.start();
        a.lock();
        b.lock();
        b.unlock();
        a.unlock();
        one.join();
        print(1);
    }
}
