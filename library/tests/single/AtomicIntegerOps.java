import java.util.concurrent.atomic.AtomicInteger;

/** AtomicInteger, by one thread. */
class AtomicIntegerOps {
    static void print(int number) {
        System.out.println(number);
    }

    static void print(boolean is) {
        System.out.println(is ? 1 : 0);
    }

    public static void main(String[] args) throws Exception {
        AtomicInteger a = new AtomicInteger();
        print(a.get());
        print(a.incrementAndGet());
        print(a.getAndIncrement());
        print(a.decrementAndGet());
        print(a.getAndDecrement());
        print(a.addAndGet(10));
        print(a.getAndAdd(-3));
        print(a.getAndSet(100));
        print(a.compareAndSet(99, 1));
        print(a.compareAndSet(100, 2147483647));
        print(a.incrementAndGet());
        a.lazySet(5);
        a.set(a.get() + 1);
        print(a.intValue());
        print(new AtomicInteger(-7).get());
    }
}
