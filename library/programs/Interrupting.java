import java.util.concurrent.BlockingQueue;
import java.util.concurrent.LinkedBlockingQueue;

/** A worker that waits in take is told to end by an interrupt. */
class Interrupting {
    public static void main(String[] args) throws Exception {
        final BlockingQueue<Integer> queue = new LinkedBlockingQueue<Integer>();
        Thread worker = new Thread() {
            public void run() {
                try {
                    while (true) {
                        System.out.println((int) queue.take());
                    }
                } catch (InterruptedException e) {
                    System.out.println(isInterrupted() ? 1 : 0);
                }
            }
        };
        worker.start();
        worker.interrupt();
        worker.join();
        System.out.println(2);
    }
}
