import java.util.concurrent.ArrayBlockingQueue;

/** What is put into a queue of one place is taken out in order. */
class QueueHandsOver {
    static void print(int number) {
        System.out.println(number);
    }

    static void print(boolean is) {
        System.out.println(is ? 1 : 0);
    }

    public static void main(String[] args) throws Exception {
        final ArrayBlockingQueue<int[]> queue = new ArrayBlockingQueue<int[]>(1);
        Thread one = new Thread() {
            public void run() {
                try {
                    queue.put(new int[] {1});
                    queue.put(new int[] {2});
                } catch (InterruptedException interrupted) {
                    print(-1);
                }
            }
        };
        one.start();
        print(queue.take()[0]);
        print(queue.take()[0]);
        one.join();
    }
}
