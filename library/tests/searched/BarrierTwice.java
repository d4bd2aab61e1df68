import java.util.concurrent.BrokenBarrierException;
import java.util.concurrent.CyclicBarrier;

/** A barrier begins anew behind each round. */
class BarrierTwice {
    static void print(int number) {
        System.out.println(number);
    }

    static void print(boolean is) {
        System.out.println(is ? 1 : 0);
    }

    public static void main(String[] args) throws Exception {
        final CyclicBarrier barrier = new CyclicBarrier(2);
        final int[] value = new int[1];
        Thread one = new Thread() {
            public void run() {
                try {
                    value[0] = 1;
                    barrier.await();
                    barrier.await();
                    value[0] = 2;
                } catch (InterruptedException interrupted) {
                    print(-1);
                } catch (BrokenBarrierException broken) {
                    print(-2);
                }
            }
        };
        one.start();
        barrier.await();
        print(value[0]);
        barrier.await();
        one.join();
        print(value[0]);
    }
}
