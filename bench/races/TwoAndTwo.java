/** A buffer of one place, two threads that put and two that take. Each waits while it can't, and wakes one of those that wait. */
class TwoAndTwo extends Thread {
    static final Object LOCK = new Object();
    static int place;
    static boolean isFull;

    final int number;

    TwoAndTwo(int number) {
        this.number = number;
    }

    static int take() throws InterruptedException {
        synchronized (LOCK) {
            while (!isFull) {
                LOCK.wait();
            }
            isFull = false;
            LOCK.notify();
            return place;
        }
    }

    static void put(int number) throws InterruptedException {
        synchronized (LOCK) {
            while (isFull) {
                LOCK.wait();
            }
            isFull = true;
            place = number;
            LOCK.notify();
        }
    }

    public void run() {
        try {
            if (number > 0) {
                put(number);
            } else {
                System.out.println(take());
            }
        } catch (InterruptedException e) {
            System.out.println(0);
        }
    }

    public static void main(String[] args) {
        new TwoAndTwo(1).start();
        new TwoAndTwo(2).start();
        new TwoAndTwo(0).start();
        new TwoAndTwo(0).start();
    }
}
