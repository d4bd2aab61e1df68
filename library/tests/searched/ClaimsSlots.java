import java.util.concurrent.atomic.AtomicReferenceArray;

/** Two threads claim one element of an AtomicReferenceArray. */
class ClaimsSlots {
    static void print(int number) {
        System.out.println(number);
    }

    static void print(boolean is) {
        System.out.println(is ? 1 : 0);
    }

    public static void main(String[] args) throws Exception {
        final AtomicReferenceArray<int[]> slots = new AtomicReferenceArray<int[]>(1);
        final boolean[] won = new boolean[1];
        Thread one = new Thread() {
            public void run() {
                won[0] = slots.compareAndSet(0, null, new int[] {1});
            }
        };
        one.start();
        boolean mine = slots.compareAndSet(0, null, new int[] {2});
        one.join();
        print(mine);
        print(won[0]);
        print(slots.get(0)[0]);
    }
}
