import java.util.concurrent.BrokenBarrierException;
import java.util.concurrent.CyclicBarrier;

/** Three threads work in rounds; the action of a CyclicBarrier prints each round's sum. */
class BarrierPhases {
    public static void main(String[] args) throws Exception {
        final int[] made = new int[3];
        final CyclicBarrier barrier = new CyclicBarrier(3, new Runnable() {
            public void run() {
                System.out.println(made[0] + made[1] + made[2]);
            }
        });
        for (int i = 0; i < 3; i++) {
            final int number = i;
            new Thread() {
                public void run() {
                    try {
                        for (int round = 1; round <= 3; round++) {
                            made[number] += round;
                            barrier.await();
                        }
                    } catch (InterruptedException e) {
                        System.out.println(-1);
                    } catch (BrokenBarrierException e) {
                        System.out.println(-2);
                    }
                }
            }.start();
        }
    }
}
