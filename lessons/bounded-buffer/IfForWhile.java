/** A buffer of two places. Who finds it empty waits, and does not look again. */
class IfForWhile extends Thread {
    static final int[] PLACES = new int[2];
    static final Object LOCK = new Object();
    static int held;

    static int take() throws InterruptedException {
        synchronized (LOCK) {
            if (held == 0) {
                LOCK.wait();
            }
            held = held - 1;
            return PLACES[held];
        }
    }

    static void put(int number) {
        synchronized (LOCK) {
            PLACES[held] = number;
            held = held + 1;
            LOCK.notify();
        }
    }

    public void run() {
        try {
            System.out.println(take());
        } catch (InterruptedException e) {
            System.out.println(0);
        }
    }

    public static void main(String[] args) {
        new IfForWhile().start();
        new IfForWhile().start();
        put(7);
        put(8);
    }
}
