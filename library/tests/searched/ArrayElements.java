import java.util.concurrent.atomic.AtomicIntegerArray;

/** Two threads add to one element of an AtomicIntegerArray. */
class ArrayElements {
    static void print(int number) {
        System.out.println(number);
    }

    static void print(boolean is) {
        System.out.println(is ? 1 : 0);
    }

    public static void main(String[] args) throws Exception {
        final AtomicIntegerArray sums = new AtomicIntegerArray(2);
        Thread one = new Thread() {
            public void run() {
                sums.addAndGet(1, 10);
            }
        };
        one.start();
        sums.getAndAdd(1, 5);
        one.join();
        print(sums.get(0));
        print(sums.get(1));
    }
}
