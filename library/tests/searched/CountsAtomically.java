import java.util.concurrent.atomic.AtomicInteger;

/** Two threads increment an AtomicInteger: nothing is lost. */
class CountsAtomically {
    static void print(int number) {
        System.out.println(number);
    }

    static void print(boolean is) {
        System.out.println(is ? 1 : 0);
    }

    public static void main(String[] args) throws Exception {
        final AtomicInteger count = new AtomicInteger();
        Thread one = new Thread() {
            public void run() {
                count.incrementAndGet();
            }
        };
        one.start();
        count.incrementAndGet();
        one.join();
        print(count.get());
    }
}
