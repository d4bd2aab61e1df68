import java.util.concurrent.atomic.AtomicReference;

/** AtomicReference, by one thread. */
class AtomicReferenceOps {
    static void print(int number) {
        System.out.println(number);
    }

    static void print(boolean is) {
        System.out.println(is ? 1 : 0);
    }

    public static void main(String[] args) throws Exception {
        Object one = new Object();
        Object two = new Object();
        AtomicReference<Object> a = new AtomicReference<Object>();
        print(a.get() == null);
        print(a.compareAndSet(null, one));
        print(a.compareAndSet(null, two));
        print(a.getAndSet(two) == one);
        print(a.get() == two);
        a.set(one);
        print(a.get() == one);
        print(new AtomicReference<Object>(two).get() == two);
    }
}
