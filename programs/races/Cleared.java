/** A thread writes, clears its status, and another one finds it cleared. No race. */
class Cleared extends Thread {
    static int x;

    public void run() {
        x = 1;
        while (!Thread.interrupted()) {
            Thread.yield();
        }
    }

    public static void main(String[] args) throws InterruptedException {
        Thread writer = new Cleared();
        writer.start();
        writer.interrupt();
        while (writer.isInterrupted()) {
            Thread.yield();
        }
        System.out.println(x);
        writer.join();
    }
}
