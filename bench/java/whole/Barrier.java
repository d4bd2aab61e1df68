/** Four threads that wait for each other behind each of their rounds. */
public class Barrier extends Thread {
    static final int ROUNDS = 10000;
    static final int THREADS = 4;

    static class Meeting {
        private int waiting;
        private int round;

        synchronized void await() throws InterruptedException {
            int mine = round;
            waiting++;
            if (waiting == THREADS) {
                waiting = 0;
                round++;
                notifyAll();
            }
            while (mine == round) {
                wait();
            }
        }
    }

    static final Meeting MEETING = new Meeting();
    int done;

    public void run() {
        try {
            for (int i = 0; i < ROUNDS; i++) {
                done += i & 1;
                MEETING.await();
            }
        } catch (InterruptedException stopped) {
            done = -1;
        }
    }

    public static void main(String[] words) throws InterruptedException {
        Barrier[] threads = new Barrier[THREADS];
        for (int i = 0; i < THREADS; i++) {
            threads[i] = new Barrier();
            threads[i].start();
        }
        int done = 0;
        for (int i = 0; i < THREADS; i++) {
            threads[i].join();
            done += threads[i].done;
        }
        System.out.println(done);
    }
}
