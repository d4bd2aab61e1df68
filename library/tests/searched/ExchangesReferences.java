import java.util.concurrent.atomic.AtomicReference;

/** getAndSet of a reference by two threads: each gets what stood there just before. */
class ExchangesReferences {
    static void print(int number) {
        System.out.println(number);
    }

    static void print(boolean is) {
        System.out.println(is ? 1 : 0);
    }

    public static void main(String[] args) throws Exception {
        final AtomicReference<int[]> shared = new AtomicReference<int[]>(new int[] {0});
        final int[] got = new int[1];
        Thread one = new Thread() {
            public void run() {
                got[0] = shared.getAndSet(new int[] {1})[0];
            }
        };
        one.start();
        int mine = shared.getAndSet(new int[] {2})[0];
        one.join();
        print(mine);
        print(got[0]);
        print(shared.get()[0]);
    }
}
