/** Two threads add 1 to a field with no lock. Races: NoLock.n. */
class NoLock extends Thread {
    static int n;

    public void run() {
        n = n + 1;
    }

    public static void main(String[] args) throws InterruptedException {
        Thread first = new NoLock();
        Thread second = new NoLock();
        first.start();
        second.start();
        first.join();
        second.join();
    }
}
