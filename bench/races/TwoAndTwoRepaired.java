/** The same, but each wakes all that wait. */
class TwoAndTwoRepaired extends Thread {
    static final Object LOCK = new Object();
    static int place;
    static boolean isFull;

    final int number;

    TwoAndTwoRepaired(int number) {
        this.number = number;
    }

    static int take() throws InterruptedException {
        synchronized (LOCK) {
            while (!isFull) {
                LOCK.wait();
            }
            isFull = false;
            LOCK.notifyAll();
            return place;
        }
    }

    static void put(int number) throws InterruptedException {
        synchronized (LOCK) {
            while (isFull) {
                LOCK.wait();
            }
            isFull = true;
            place = number;
            LOCK.notifyAll();
        }
    }

    public void run() {
        try {
            if (number > 0) {
                put(number);
            } else {
                System.out.println(take());
            }
        } catch (InterruptedException e) {
            System.out.println(0);
        }
    }

    public static void main(String[] args) {
        new TwoAndTwoRepaired(1).start();
        new TwoAndTwoRepaired(2).start();
        new TwoAndTwoRepaired(0).start();
        new TwoAndTwoRepaired(0).start();
    }
}
