/** The main thread waits for a bell that another thread rings, unless it has rung. */
class Repaired extends Thread {
    static final Object BELL = new Object();
    static boolean hasRung;

    public void run() {
        synchronized (BELL) {
            hasRung = true;
            BELL.notify();
        }
    }

    public static void main(String[] args) throws InterruptedException {
        new Repaired().start();
        synchronized (BELL) {
            while (!hasRung) {
                BELL.wait();
            }
        }
        System.out.println(1);
    }
}
