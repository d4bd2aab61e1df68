/** Double-checked locking, with a volatile field. No race. */
class DoubleCheckedVolatile extends Thread {
    static volatile DoubleCheckedVolatile made;
    int n;

    static DoubleCheckedVolatile one() {
        if (made == null) {
            synchronized (DoubleCheckedVolatile.class) {
                if (made == null) {
                    DoubleCheckedVolatile fresh = new DoubleCheckedVolatile();
                    fresh.n = 1;
                    made = fresh;
                }
            }
        }
        return made;
    }

    public void run() {
        System.out.println(one().n);
    }

    public static void main(String[] args) throws InterruptedException {
        Thread first = new DoubleCheckedVolatile();
        Thread second = new DoubleCheckedVolatile();
        first.start();
        second.start();
        first.join();
        second.join();
    }
}
