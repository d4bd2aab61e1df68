/** Three philosophers take their left fork first: where each has one, none can go on. Races. */
class LeftForks extends Thread {
    static final Object[] FORKS = {new Object(), new Object(), new Object()};
    private final Object left, right;

    LeftForks(int place) {
        left = FORKS[place];
        right = FORKS[(place + 1) % FORKS.length];
    }

    public void run() {
        synchronized (left) {
            synchronized (right) {
                System.out.println(1);
            }
        }
    }

    public static void main(String[] args) {
        for (int i = 0; i < FORKS.length; i++) {
            new LeftForks(i).start();
        }
    }
}
