import java.util.concurrent.SynchronousQueue;

/** A put and a take of a SynchronousQueue meet. */
class SynchronousMeeting {
    static void print(int number) {
        System.out.println(number);
    }

    static void print(boolean is) {
        System.out.println(is ? 1 : 0);
    }

    public static void main(String[] args) throws Exception {
        final SynchronousQueue<int[]> queue = new SynchronousQueue<int[]>();
        Thread one = new Thread() {
            public void run() {
                try {
                    queue.put(new int[] {8});
                    print(2);
                } catch (InterruptedException interrupted) {
                    print(-1);
                }
            }
        };
        one.start();
        int got = queue.take()[0];
        one.join();
        print(got);
    }
}
