import java.util.concurrent.atomic.AtomicStampedReference;

/** A stamp shows that a reference was changed and changed back. */
class StampsSeeChanges {
    static void print(int number) {
        System.out.println(number);
    }

    static void print(boolean is) {
        System.out.println(is ? 1 : 0);
    }

    public static void main(String[] args) throws Exception {
        final Object a = new Object();
        final AtomicStampedReference<Object> top = new AtomicStampedReference<Object>(a, 0);
        Thread one = new Thread() {
            public void run() {
                top.set(new Object(), 1);
                top.set(a, 2);
            }
        };
        int[] stamp = new int[1];
        Object seen = top.get(stamp);
        one.start();
        print(top.compareAndSet(seen, null, stamp[0], 3));
        one.join();
        print(top.getStamp());
    }
}
