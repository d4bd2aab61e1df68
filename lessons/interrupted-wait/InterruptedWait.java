/** A thread waits for nothing, and the main thread interrupts it. */
class InterruptedWait extends Thread {
    public void run() {
        synchronized (this) {
            try {
                wait();
                System.out.println(1);
            } catch (InterruptedException e) {
                System.out.println(2);
            }
        }
    }

    public static void main(String[] args) {
        Thread other = new InterruptedWait();
        other.start();
        other.interrupt();
    }
}
