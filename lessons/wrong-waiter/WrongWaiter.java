/** Two threads wait for their turns on one lock. The main thread says whose turn it is, and notifies one. */
class WrongWaiter extends Thread {
    static final Object LOCK = new Object();
    static int turn;

    final int mine;

    WrongWaiter(int mine) {
        this.mine = mine;
    }

    public void run() {
        synchronized (LOCK) {
            while (turn != mine) {
                try {
                    LOCK.wait();
                } catch (InterruptedException e) {
                    return;
                }
            }
            System.out.println(mine);
            turn = turn + 1;
            LOCK.notify();
        }
    }

    public static void main(String[] args) {
        new WrongWaiter(1).start();
        new WrongWaiter(2).start();
        synchronized (LOCK) {
            turn = 1;
            LOCK.notify();
        }
    }
}
