import java.util.concurrent.SynchronousQueue;

/** One that puts is interrupted, or its element is taken by poll. */
class SynchronousInterrupted {
    static void print(int number) {
        System.out.println(number);
    }

    static void print(boolean is) {
        System.out.println(is ? 1 : 0);
    }

    public static void main(String[] args) throws Exception {
        final SynchronousQueue<int[]> queue = new SynchronousQueue<int[]>();
        final int[] how = new int[1];
        Thread one = new Thread() {
            public void run() {
                try {
                    queue.put(new int[] {8});
                    how[0] = 1;
                } catch (InterruptedException interrupted) {
                    how[0] = 2;
                }
            }
        };
        one.start();
        int[] got = queue.poll();
        one.interrupt();
        one.join();
        print(got == null);
        print(how[0]);
    }
}
