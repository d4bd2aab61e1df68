import java.util.concurrent.ConcurrentLinkedQueue;

/** Two threads add to a ConcurrentLinkedQueue: both elements are there. */
class ConcurrentQueueKeepsAll {
    static void print(int number) {
        System.out.println(number);
    }

    static void print(boolean is) {
        System.out.println(is ? 1 : 0);
    }

    public static void main(String[] args) throws Exception {
        final ConcurrentLinkedQueue<int[]> queue = new ConcurrentLinkedQueue<int[]>();
        Thread one = new Thread() {
            public void run() {
                queue.add(new int[] {1});
            }
        };
        one.start();
        queue.add(new int[] {2});
        one.join();
        print(queue.poll()[0]);
        print(queue.poll()[0]);
        print(queue.poll() == null);
    }
}
