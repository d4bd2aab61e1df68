import java.util.concurrent.Semaphore;

/** Two threads print in turn, by two semaphores. */
class PingPong {
    static class Player implements Runnable {
        private final int number;
        private final Semaphore mine;
        private final Semaphore other;

        Player(int number, Semaphore mine, Semaphore other) {
            this.number = number;
            this.mine = mine;
            this.other = other;
        }

        public void run() {
            for (int i = 0; i < 4; i++) {
                mine.acquireUninterruptibly();
                System.out.println(number);
                other.release();
            }
        }
    }

    public static void main(String[] args) throws Exception {
        final Semaphore ping = new Semaphore(1);
        final Semaphore pong = new Semaphore(0);
        Thread first = new Thread(new Player(1, ping, pong));
        Thread second = new Thread(new Player(2, pong, ping));
        first.start();
        second.start();
        first.join();
        second.join();
        System.out.println(3);
    }
}
