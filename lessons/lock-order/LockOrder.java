/** Two threads need two locks, and take them in opposite orders. */
class LockOrder extends Thread {
    static final Object LEFT = new Object();
    static final Object RIGHT = new Object();

    final Object first;
    final Object second;

    LockOrder(Object first, Object second) {
        this.first = first;
        this.second = second;
    }

    public void run() {
        synchronized (first) {
            synchronized (second) {
                System.out.println(1);
            }
        }
    }

    public static void main(String[] args) {
        new LockOrder(LEFT, RIGHT).start();
        new LockOrder(RIGHT, LEFT).start();
    }
}
