import java.util.Collections;
import java.util.ArrayList;
import java.util.List;
import java.util.concurrent.BlockingQueue;
import java.util.concurrent.LinkedBlockingQueue;

/** Workers take from a queue until they meet a pill; the results are sorted. */
class WorkQueue {
    public static void main(String[] args) throws Exception {
        final BlockingQueue<Integer> work = new LinkedBlockingQueue<Integer>();
        final List<Integer> results = Collections.synchronizedList(new ArrayList<Integer>());
        Thread[] workers = new Thread[2];
        for (int w = 0; w < 2; w++) {
            workers[w] = new Thread() {
                public void run() {
                    try {
                        for (int next = work.take(); next >= 0; next = work.take()) {
                            results.add(next * 2);
                        }
                    } catch (InterruptedException e) {
                        results.add(-1);
                    }
                }
            };
            workers[w].start();
        }
        for (int i = 0; i < 8; i++) {
            work.put(7 - i);
        }
        work.put(-1);
        work.put(-1);
        workers[0].join();
        workers[1].join();
        Collections.sort(results);
        for (int each : results) {
            System.out.println(each);
        }
    }
}
