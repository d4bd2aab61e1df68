import java.util.concurrent.FutureTask;

/** Two threads run one FutureTask: it is done once. */
class FutureRunsOnce {
    static void print(int number) {
        System.out.println(number);
    }

    static void print(boolean is) {
        System.out.println(is ? 1 : 0);
    }

    public static void main(String[] args) throws Exception {
        final int[] count = new int[1];
        FutureTask<Object> task = new FutureTask<Object>(new Runnable() {
            public void run() {
                count[0]++;
            }
        }, null);
        Thread one = new Thread(task);
        one.start();
        task.run();
        one.join();
        print(count[0]);
    }
}
