import java.util.concurrent.FutureTask;

/** A task is cancelled, or done before. */
class CancelOrDone {
    static void print(int number) {
        System.out.println(number);
    }

    static void print(boolean is) {
        System.out.println(is ? 1 : 0);
    }

    public static void main(String[] args) throws Exception {
        FutureTask<Object> task = new FutureTask<Object>(new Runnable() {
            public void run() {
            }
        }, null);
        Thread one = new Thread(task);
        one.start();
        boolean isCancelled = task.cancel(false);
        one.join();
        print(isCancelled == task.isCancelled());
        print(isCancelled);
    }
}
