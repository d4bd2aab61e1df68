import java.util.concurrent.Exchanger;

/** Two threads exchange what they have. */
class Exchanged {
    static void print(int number) {
        System.out.println(number);
    }

    static void print(boolean is) {
        System.out.println(is ? 1 : 0);
    }

    public static void main(String[] args) throws Exception {
        final Exchanger<Integer> exchanger = new Exchanger<Integer>();
        final int[] got = new int[1];
        Thread one = new Thread() {
            public void run() {
                try {
                    got[0] = exchanger.exchange(1);
                } catch (InterruptedException interrupted) {
                    got[0] = -1;
                }
            }
        };
        one.start();
        int mine = exchanger.exchange(2);
        one.join();
        print(mine);
        print(got[0]);
    }
}
