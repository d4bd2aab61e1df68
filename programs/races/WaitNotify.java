/** A waiting thread reads what was written before the notify. No race. */
class WaitNotify extends Thread {
    static final Object lock = new Object();
    static int x;

    public void run() {
        synchronized (lock) {
            x = 1;
            lock.notify();
        }
    }

    public static void main(String[] args) throws InterruptedException {
        Thread writer = new WaitNotify();
        synchronized (lock) {
            writer.start();
            while (x == 0) {
                lock.wait();
            }
        }
        System.out.println(x);
    }
}
