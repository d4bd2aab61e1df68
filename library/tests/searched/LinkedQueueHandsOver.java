import java.util.concurrent.LinkedBlockingQueue;

/** A LinkedBlockingQueue without bound. */
class LinkedQueueHandsOver {
    static void print(int number) {
        System.out.println(number);
    }

    static void print(boolean is) {
        System.out.println(is ? 1 : 0);
    }

    public static void main(String[] args) throws Exception {
        final LinkedBlockingQueue<int[]> queue = new LinkedBlockingQueue<int[]>();
        Thread one = new Thread() {
            public void run() {
                queue.offer(new int[] {1});
                queue.offer(new int[] {2});
            }
        };
        one.start();
        print(queue.take()[0]);
        print(queue.take()[0]);
        one.join();
    }
}
