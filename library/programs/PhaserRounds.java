import java.util.concurrent.Phaser;
import java.util.concurrent.atomic.AtomicInteger;

/** Workers register at a Phaser, and leave after different numbers of rounds. */
class PhaserRounds {
    static class Worker implements Runnable {
        private final Phaser phaser;
        private final AtomicInteger work;
        private final int rounds;

        Worker(Phaser phaser, AtomicInteger work, int rounds) {
            this.phaser = phaser;
            this.work = work;
            this.rounds = rounds;
        }

        public void run() {
            for (int i = 1; i < rounds; i++) {
                work.incrementAndGet();
                phaser.arriveAndAwaitAdvance();
            }
            work.addAndGet(10);
            phaser.arriveAndDeregister();
        }
    }

    public static void main(String[] args) throws Exception {
        final AtomicInteger work = new AtomicInteger();
        Phaser phaser = new Phaser(1) {
            protected boolean onAdvance(int phase, int parties) {
                System.out.println(work.get());
                return super.onAdvance(phase, parties);
            }
        };
        for (int i = 1; i <= 3; i++) {
            phaser.register();
            new Thread(new Worker(phaser, work, i)).start();
        }
        for (int round = 0; round < 3; round++) {
            phaser.arriveAndAwaitAdvance();
        }
        phaser.arriveAndDeregister();
        System.out.println(phaser.isTerminated() ? 1 : 0);
    }
}
