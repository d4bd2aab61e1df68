import java.util.concurrent.Callable;
import java.util.concurrent.FutureTask;

/** One waits for the result of a FutureTask that another one runs. */
class FutureIsAwaited {
    static void print(int number) {
        System.out.println(number);
    }

    static void print(boolean is) {
        System.out.println(is ? 1 : 0);
    }

    public static void main(String[] args) throws Exception {
        final FutureTask<int[]> task = new FutureTask<int[]>(new Callable<int[]>() {
            public int[] call() {
                return new int[] {9};
            }
        });
        new Thread(task).start();
        print(task.get()[0]);
    }
}
