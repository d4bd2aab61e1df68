import java.util.concurrent.atomic.AtomicReference;

/** Two threads publish an object by compareAndSet: both see one and the same. */
class PublishedOnce {
    static void print(int number) {
        System.out.println(number);
    }

    static void print(boolean is) {
        System.out.println(is ? 1 : 0);
    }

    public static void main(String[] args) throws Exception {
        final AtomicReference<int[]> shared = new AtomicReference<int[]>();
        final int[] seen = new int[1];
        Thread one = new Thread() {
            public void run() {
                shared.compareAndSet(null, new int[] {1});
                seen[0] = shared.get()[0];
            }
        };
        one.start();
        shared.compareAndSet(null, new int[] {2});
        int mine = shared.get()[0];
        one.join();
        print(mine);
        print(seen[0]);
    }
}
