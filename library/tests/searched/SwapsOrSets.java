import java.util.concurrent.atomic.AtomicInteger;

/** A compareAndSet beside a set: where it has succeeded, the set came before it or after it whole. */
class SwapsOrSets {
    static void print(int number) {
        System.out.println(number);
    }

    static void print(boolean is) {
        System.out.println(is ? 1 : 0);
    }

    public static void main(String[] args) throws Exception {
        final AtomicInteger value = new AtomicInteger();
        Thread one = new Thread() {
            public void run() {
                value.set(5);
            }
        };
        one.start();
        print(value.compareAndSet(0, 1));
        one.join();
        print(value.get());
    }
}
