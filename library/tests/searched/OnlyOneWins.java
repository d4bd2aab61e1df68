import java.util.concurrent.atomic.AtomicBoolean;

/** Two threads set an AtomicBoolean from false to true: one of them does. */
class OnlyOneWins {
    static void print(int number) {
        System.out.println(number);
    }

    static void print(boolean is) {
        System.out.println(is ? 1 : 0);
    }

    public static void main(String[] args) throws Exception {
        final AtomicBoolean isTaken = new AtomicBoolean();
        final boolean[] won = new boolean[1];
        Thread one = new Thread() {
            public void run() {
                won[0] = isTaken.compareAndSet(false, true);
            }
        };
        one.start();
        boolean mine = isTaken.compareAndSet(false, true);
        one.join();
        print(mine);
        print(won[0]);
    }
}
