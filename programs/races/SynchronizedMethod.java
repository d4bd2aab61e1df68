/** A static synchronized method adds 1. No race. */
class SynchronizedMethod extends Thread {
    static int n;

    public void run() {
        add();
    }

    static synchronized void add() {
        n = n + 1;
    }

    public static void main(String[] args) throws InterruptedException {
        Thread first = new SynchronizedMethod();
        Thread second = new SynchronizedMethod();
        first.start();
        second.start();
        first.join();
        second.join();
    }
}
