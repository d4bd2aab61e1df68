import java.util.concurrent.Callable;
import java.util.concurrent.FutureTask;
import java.util.concurrent.ExecutionException;
import java.util.concurrent.CancellationException;

/** FutureTask, by one thread. */
class FutureTaskOps {
    static void print(int number) {
        System.out.println(number);
    }

    static void print(boolean is) {
        System.out.println(is ? 1 : 0);
    }

    public static void main(String[] args) throws Exception {
        FutureTask<Integer> task = new FutureTask<Integer>(new Callable<Integer>() {
            public Integer call() {
                print(1);
                return 42;
            }
        });
        print(task.isDone());
        task.run();
        task.run();
        print(task.isDone());
        print(task.get());
        print(task.cancel(true));
        print(task.isCancelled());
        FutureTask<Integer> fails = new FutureTask<Integer>(new Callable<Integer>() {
            public Integer call() {
                throw new IllegalStateException();
            }
        });
        fails.run();
        try {
            fails.get();
        } catch (ExecutionException failed) {
            print(failed.getCause() instanceof IllegalStateException);
        }
        FutureTask<Integer> cancelled = new FutureTask<Integer>(new Runnable() {
            public void run() {
                print(2);
            }
        }, 5);
        print(cancelled.cancel(false));
        cancelled.run();
        print(cancelled.isCancelled());
        print(cancelled.isDone());
        try {
            cancelled.get();
        } catch (CancellationException none) {
            print(-1);
        }
        FutureTask<Integer> ran = new FutureTask<Integer>(new Runnable() {
            public void run() {
                print(3);
            }
        }, 6);
        ran.run();
        print(ran.get());
    }
}
