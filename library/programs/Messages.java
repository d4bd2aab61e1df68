import java.util.ArrayList;
import java.util.Collections;
import java.util.List;
import java.util.concurrent.ArrayBlockingQueue;
import java.util.concurrent.BlockingQueue;
import java.util.concurrent.atomic.AtomicInteger;

/** Makers put messages into a queue, and takers sort them into a list until each has had a last one. */
class Messages {
    static final String LAST = "last";

    public static void main(String[] args) throws InterruptedException {
        final BlockingQueue<String> queue = new ArrayBlockingQueue<String>(2);
        final List<String> taken = Collections.synchronizedList(new ArrayList<String>());
        final AtomicInteger numbers = new AtomicInteger();
        List<Thread> makers = new ArrayList<Thread>();
        List<Thread> takers = new ArrayList<Thread>();
        for (int at = 0; at < 2; at++) {
            makers.add(new Thread() {
                @Override
                public void run() {
                    try {
                        for (int count = 0; count < 3; count++) {
                            queue.put("message " + numbers.incrementAndGet());
                        }
                    } catch (InterruptedException ended) {
                        System.out.println(ended);
                    }
                }
            });
            takers.add(new Thread() {
                @Override
                public void run() {
                    try {
                        for (String next = queue.take(); !next.equals(LAST); next = queue.take()) {
                            taken.add(next);
                        }
                    } catch (InterruptedException ended) {
                        System.out.println(ended);
                    }
                }
            });
        }
        for (int at = 0; at < 2; at++) {
            makers.get(at).start();
            takers.get(at).start();
        }
        for (Thread maker : makers) {
            maker.join();
        }
        queue.put(LAST);
        queue.put(LAST);
        for (Thread taker : takers) {
            taker.join();
        }
        Collections.sort(taken);
        System.out.println(taken + " of " + numbers + ", left: " + queue);
    }
}
