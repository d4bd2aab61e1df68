/** Three threads meet twice; the last one of each round adds up what all have brought. */
class Barrier {
    private final int size;
    private int arrived, round, brought;

    Barrier(int size) {
        this.size = size;
    }

    synchronized void meet(int amount) throws InterruptedException {
        int mine = round;
        brought += amount;
        if (++arrived == size) {
            System.out.println(brought);
            arrived = 0;
            round++;
            notifyAll();
        } else {
            while (round == mine) {
                wait();
            }
        }
    }

    static class Party implements Runnable {
        final Barrier barrier;
        final int amount;

        Party(Barrier barrier, int amount) {
            this.barrier = barrier;
            this.amount = amount;
        }

        public void run() {
            try {
                barrier.meet(amount);
                barrier.meet(10 * amount);
            } catch (InterruptedException e) {
                System.out.println(-1);
            }
        }
    }

    public static void main(String[] args) {
        Barrier barrier = new Barrier(3);
        new Thread(new Party(barrier, 1)).start();
        new Thread(new Party(barrier, 2)).start();
        new Party(barrier, 3).run();
    }
}
