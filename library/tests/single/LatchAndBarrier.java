import java.util.concurrent.CountDownLatch;
import java.util.concurrent.CyclicBarrier;
import java.util.concurrent.BrokenBarrierException;
import java.util.concurrent.Phaser;

/** CountDownLatch, CyclicBarrier, Phaser, by one thread. */
class LatchAndBarrier {
    static void print(int number) {
        System.out.println(number);
    }

    static void print(boolean is) {
        System.out.println(is ? 1 : 0);
    }

    public static void main(String[] args) throws Exception {
        CountDownLatch latch = new CountDownLatch(1);
        latch.countDown();
        latch.countDown();
        latch.await();
        try {
            new CountDownLatch(-1);
        } catch (IllegalArgumentException negative) {
            print(-1);
        }
        Thread.currentThread().interrupt();
        try {
            latch.await();
        } catch (InterruptedException interrupted) {
            print(-2);
        }
        CyclicBarrier barrier = new CyclicBarrier(1, new Runnable() {
            public void run() {
                print(7);
            }
        });
        print(barrier.await());
        print(barrier.await());
        print(barrier.getParties());
        print(barrier.getNumberWaiting());
        CyclicBarrier two = new CyclicBarrier(2);
        Thread.currentThread().interrupt();
        try {
            two.await();
        } catch (InterruptedException interrupted) {
            print(-3);
        }
        print(two.isBroken());
        try {
            two.await();
        } catch (BrokenBarrierException broken) {
            print(-4);
        }
        two.reset();
        print(two.isBroken());
        Phaser phaser = new Phaser(1);
        print(phaser.getPhase());
        print(phaser.arrive());
        print(phaser.getPhase());
        print(phaser.register());
        print(phaser.getRegisteredParties());
        print(phaser.arrive());
        print(phaser.getArrivedParties());
        print(phaser.getUnarrivedParties());
        print(phaser.arriveAndDeregister());
        print(phaser.getPhase());
        print(phaser.arriveAndAwaitAdvance());
        print(phaser.awaitAdvance(0));
        print(phaser.arriveAndDeregister());
        print(phaser.isTerminated());
        print(phaser.arrive() < 0);
    }
}
