import java.util.concurrent.Phaser;

/** Two parties advance together. */
class PhaserAdvances {
    static void print(int number) {
        System.out.println(number);
    }

    static void print(boolean is) {
        System.out.println(is ? 1 : 0);
    }

    public static void main(String[] args) throws Exception {
        final Phaser phaser = new Phaser(2);
        final int[] value = new int[1];
        Thread one = new Thread() {
            public void run() {
                value[0] = 6;
                phaser.arriveAndAwaitAdvance();
                phaser.arriveAndDeregister();
            }
        };
        one.start();
        print(phaser.arriveAndAwaitAdvance());
        print(value[0]);
        print(phaser.arriveAndAwaitAdvance());
        print(phaser.getRegisteredParties());
        one.join();
    }
}
