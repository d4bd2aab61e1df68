/** Three threads wait; which one is notified is up to the pick. Races. */
class Notified extends Thread {
    static final Object GATE = new Object();
    static int waiting;
    private final int number;

    Notified(int number) {
        this.number = number;
    }

    static synchronized void arrive() {
        waiting++;
        Notified.class.notify();
    }

    public void run() {
        try {
            synchronized (GATE) {
                arrive();
                GATE.wait();
                System.out.println(number);
                GATE.notify();
            }
        } catch (InterruptedException e) {
            System.out.println(-number);
        }
    }

    public static void main(String[] args) throws InterruptedException {
        for (int i = 1; i <= 3; i++) {
            new Notified(i).start();
        }
        synchronized (Notified.class) {
            while (waiting < 3) {
                Notified.class.wait();
            }
        }
        synchronized (GATE) {
            GATE.notify();
        }
    }
}
