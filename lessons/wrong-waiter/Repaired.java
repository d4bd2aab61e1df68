/** Two threads wait for their turns on one lock. The main thread says whose turn it is, and notifies all. */
class Repaired extends Thread {
    static final Object LOCK = new Object();
    static int turn;

    final int mine;

    Repaired(int mine) {
        this.mine = mine;
    }

    public void run() {
        synchronized (LOCK) {
            while (turn != mine) {
                try {
                    LOCK.wait();
                } catch (InterruptedException e) {
                    return;
                }
            }
            System.out.println(mine);
            turn = turn + 1;
            LOCK.notifyAll();
        }
    }

    public static void main(String[] args) {
        new Repaired(1).start();
        new Repaired(2).start();
        synchronized (LOCK) {
            turn = 1;
            LOCK.notifyAll();
        }
    }
}
