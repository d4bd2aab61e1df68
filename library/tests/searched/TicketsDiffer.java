import java.util.concurrent.atomic.AtomicInteger;

/** Two threads draw tickets by getAndIncrement: 0 and 1, in one of two orders. */
class TicketsDiffer {
    static void print(int number) {
        System.out.println(number);
    }

    static void print(boolean is) {
        System.out.println(is ? 1 : 0);
    }

    public static void main(String[] args) throws Exception {
        final AtomicInteger next = new AtomicInteger();
        final int[] drawn = new int[1];
        Thread one = new Thread() {
            public void run() {
                drawn[0] = next.getAndIncrement();
            }
        };
        one.start();
        int mine = next.getAndIncrement();
        one.join();
        print(mine);
        print(drawn[0]);
    }
}
