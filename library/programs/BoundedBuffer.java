import java.util.concurrent.ArrayBlockingQueue;
import java.util.concurrent.BlockingQueue;

/** A producer and a consumer over an ArrayBlockingQueue: the consumer prints what comes. */
class BoundedBuffer {
    public static void main(String[] args) throws Exception {
        final BlockingQueue<Integer> queue = new ArrayBlockingQueue<Integer>(2);
        Thread producer = new Thread(new Runnable() {
            public void run() {
                try {
                    for (int i = 1; i <= 5; i++) {
                        queue.put(i * i);
                    }
                    queue.put(-1);
                } catch (InterruptedException e) {
                    Thread.currentThread().interrupt();
                }
            }
        });
        producer.start();
        for (int next = queue.take(); next >= 0; next = queue.take()) {
            System.out.println(next);
        }
        producer.join();
    }
}
