import java.util.concurrent.atomic.AtomicIntegerArray;
import java.util.concurrent.atomic.AtomicReferenceArray;

/** AtomicIntegerArray and AtomicReferenceArray, by one thread. */
class AtomicArrays {
    static void print(int number) {
        System.out.println(number);
    }

    static void print(boolean is) {
        System.out.println(is ? 1 : 0);
    }

    public static void main(String[] args) throws Exception {
        AtomicIntegerArray a = new AtomicIntegerArray(3);
        a.set(0, 5);
        print(a.get(0));
        print(a.getAndAdd(0, 2));
        print(a.addAndGet(0, 3));
        print(a.incrementAndGet(1));
        print(a.getAndIncrement(1));
        print(a.decrementAndGet(2));
        print(a.getAndDecrement(2));
        print(a.compareAndSet(2, -2, 9));
        print(a.compareAndSet(2, -2, 8));
        print(a.getAndSet(2, 4));
        print(a.length());
        print(new AtomicIntegerArray(new int[] {7, 8}).get(1));
        try {
            a.get(3);
        } catch (IndexOutOfBoundsException outside) {
            print(-1);
        }
        AtomicReferenceArray<Integer> b = new AtomicReferenceArray<Integer>(2);
        print(b.get(0) == null);
        print(b.compareAndSet(0, null, 5));
        print(b.getAndSet(0, 6));
        print(b.get(0));
        b.set(1, 7);
        print(b.get(1));
        print(b.length());
    }
}
