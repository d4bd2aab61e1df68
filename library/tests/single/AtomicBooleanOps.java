import java.util.concurrent.atomic.AtomicBoolean;

/** AtomicBoolean, by one thread. */
class AtomicBooleanOps {
    static void print(int number) {
        System.out.println(number);
    }

    static void print(boolean is) {
        System.out.println(is ? 1 : 0);
    }

    public static void main(String[] args) throws Exception {
        AtomicBoolean a = new AtomicBoolean();
        print(a.get());
        print(a.compareAndSet(true, false));
        print(a.compareAndSet(false, true));
        print(a.getAndSet(false));
        a.set(true);
        print(a.get());
        a.lazySet(false);
        print(a.get());
        print(new AtomicBoolean(true).get());
    }
}
