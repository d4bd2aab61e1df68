import java.util.concurrent.atomic.AtomicStampedReference;
import java.util.concurrent.atomic.AtomicMarkableReference;

/** AtomicStampedReference and AtomicMarkableReference, by one thread. */
class AtomicPairs {
    static void print(int number) {
        System.out.println(number);
    }

    static void print(boolean is) {
        System.out.println(is ? 1 : 0);
    }

    public static void main(String[] args) throws Exception {
        Object one = new Object();
        Object two = new Object();
        int[] stamp = new int[1];
        AtomicStampedReference<Object> a = new AtomicStampedReference<Object>(one, 0);
        print(a.compareAndSet(one, two, 1, 2));
        print(a.compareAndSet(two, one, 0, 2));
        print(a.compareAndSet(one, two, 0, 1));
        print(a.get(stamp) == two);
        print(stamp[0]);
        print(a.attemptStamp(one, 5));
        print(a.attemptStamp(two, 5));
        print(a.getStamp());
        a.set(one, 9);
        print(a.getReference() == one);
        boolean[] mark = new boolean[1];
        AtomicMarkableReference<Object> b = new AtomicMarkableReference<Object>(one, false);
        print(b.compareAndSet(one, two, true, true));
        print(b.compareAndSet(one, two, false, true));
        print(b.get(mark) == two);
        print(mark[0]);
        print(b.attemptMark(two, false));
        print(b.isMarked());
        b.set(one, true);
        print(b.getReference() == one);
    }
}
