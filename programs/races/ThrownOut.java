/** An exception leaves a synchronized method, which unlocks. No race. */
class ThrownOut extends Thread {
    static int n;

    public void run() {
        try {
            add();
        } catch (ArithmeticException caught) {
            return;
        }
    }

    static synchronized void add() {
        n = n + 1;
        n = n / (n - n);
    }

    public static void main(String[] args) throws InterruptedException {
        Thread first = new ThrownOut();
        Thread second = new ThrownOut();
        first.start();
        second.start();
        first.join();
        second.join();
    }
}
