/** A waiting thread is interrupted; another one is before it waits. */
class Interrupts extends Thread {
    static int caught;

    public void run() {
        synchronized (this) {
            try {
                wait();
                System.out.println(-1);
            } catch (InterruptedException e) {
                synchronized (Interrupts.class) {
                    caught += isInterrupted() ? 100 : 1;
                }
                interrupt();
                caught += Thread.interrupted() ? 10 : 200;
            }
        }
    }

    public static void main(String[] args) throws InterruptedException {
        Interrupts first = new Interrupts();
        first.start();
        first.interrupt();
        first.join();
        System.out.println(caught);
        Thread.currentThread().interrupt();
        try {
            synchronized (first) {
                first.wait();
            }
        } catch (InterruptedException e) {
            System.out.println(Thread.currentThread().isInterrupted() ? 1 : 0);
        }
        System.out.println(first.isAlive() ? 1 : 0);
    }
}
