import java.util.concurrent.BrokenBarrierException;
import java.util.concurrent.CyclicBarrier;

/** Two threads meet at a barrier; the action comes before either goes on. */
class BarrierMeets {
    static void print(int number) {
        System.out.println(number);
    }

    static void print(boolean is) {
        System.out.println(is ? 1 : 0);
    }

    public static void main(String[] args) throws Exception {
        final int[] value = new int[2];
        final CyclicBarrier barrier = new CyclicBarrier(2, new Runnable() {
            public void run() {
                print(value[0] + value[1]);
            }
        });
        Thread one = new Thread() {
            public void run() {
                value[0] = 1;
                try {
                    barrier.await();
                } catch (InterruptedException interrupted) {
                    print(-1);
                } catch (BrokenBarrierException broken) {
                    print(-2);
                }
            }
        };
        one.start();
        value[1] = 2;
        barrier.await();
        print(5);
        one.join();
    }
}
