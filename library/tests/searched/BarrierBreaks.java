import java.util.concurrent.BrokenBarrierException;
import java.util.concurrent.CyclicBarrier;

/** Where one is interrupted at a barrier, the other one is told that it is broken. */
class BarrierBreaks {
    static void print(int number) {
        System.out.println(number);
    }

    static void print(boolean is) {
        System.out.println(is ? 1 : 0);
    }

    public static void main(String[] args) throws Exception {
        final CyclicBarrier barrier = new CyclicBarrier(3);
        Thread one = new Thread() {
            public void run() {
                try {
                    barrier.await();
                } catch (InterruptedException interrupted) {
                    print(1);
                } catch (BrokenBarrierException broken) {
                    print(2);
                }
            }
        };
        one.start();
        one.interrupt();
        try {
            barrier.await();
        } catch (BrokenBarrierException broken) {
            print(3);
        }
        one.join();
    }
}
