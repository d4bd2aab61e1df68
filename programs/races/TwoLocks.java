/** Two threads add 1 to a field, each under a lock of its own. Races: TwoLocks.n. */
class TwoLocks extends Thread {
    static int n;

    public void run() {
        synchronized (this) {
            n = n + 1;
        }
    }

    public static void main(String[] args) throws InterruptedException {
        Thread first = new TwoLocks();
        Thread second = new TwoLocks();
        first.start();
        second.start();
        first.join();
        second.join();
    }
}
