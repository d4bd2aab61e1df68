/** What is written behind the monitor is read behind the wait. Races: NotifiedThen.x. */
class NotifiedThen extends Thread {
    static final Object lock = new Object();
    static boolean ready;
    static int x;

    public void run() {
        synchronized (lock) {
            ready = true;
            lock.notify();
        }
        x = 1;
    }

    public static void main(String[] args) throws InterruptedException {
        Thread writer = new NotifiedThen();
        writer.start();
        synchronized (lock) {
            while (!ready) {
                lock.wait();
            }
        }
        System.out.println(x);
        writer.join();
    }
}
