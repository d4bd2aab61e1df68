/** A monitor is entered twice; the inner exit leaves it owned. No race. */
class NestedLocks extends Thread {
    static final Object lock = new Object();
    static int n;

    public void run() {
        synchronized (lock) {
            synchronized (lock) {
                n = n + 1;
            }
            n = n + 1;
        }
    }

    public static void main(String[] args) throws InterruptedException {
        Thread first = new NestedLocks();
        Thread second = new NestedLocks();
        first.start();
        second.start();
        first.join();
        second.join();
    }
}
