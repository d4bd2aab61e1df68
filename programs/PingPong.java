/** Two threads print in turn. */
class PingPong extends Thread {
    static final Object TABLE = new Object();
    static int next;
    private final int mine;

    PingPong(int mine) {
        this.mine = mine;
    }

    public void run() {
        try {
            for (int i = 0; i < 3; i++) {
                synchronized (TABLE) {
                    while (next != mine) {
                        TABLE.wait();
                    }
                    System.out.println(10 * i + mine);
                    next = 1 - mine;
                    TABLE.notify();
                }
            }
        } catch (InterruptedException e) {
            System.out.println(-1);
        }
    }

    public static void main(String[] args) {
        new PingPong(1).start();
        new PingPong(0).start();
    }
}
