/** A thread writes once more behind the exit of the monitor. Races: AfterExit.n. */
class AfterExit extends Thread {
    static final Object lock = new Object();
    static int n;

    public void run() {
        synchronized (lock) {
            n = n + 1;
        }
        n = n + 1;
    }

    public static void main(String[] args) throws InterruptedException {
        Thread first = new AfterExit();
        Thread second = new AfterExit();
        first.start();
        second.start();
        first.join();
        second.join();
    }
}
