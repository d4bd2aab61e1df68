/** The main thread waits for a bell that another thread rings. */
class MissedNotify extends Thread {
    static final Object BELL = new Object();

    public void run() {
        synchronized (BELL) {
            BELL.notify();
        }
    }

    public static void main(String[] args) throws InterruptedException {
        new MissedNotify().start();
        synchronized (BELL) {
            BELL.wait();
        }
        System.out.println(1);
    }
}
