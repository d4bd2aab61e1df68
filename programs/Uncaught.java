/** Threads end by exceptions, one of them in a synchronized block, whose monitor is free then. */
class Uncaught extends Thread {
    static final Object LOCK = new Object();

    static class Own extends RuntimeException {
    }

    public void run() {
        synchronized (LOCK) {
            throw new Own();
        }
    }

    public static void main(String[] args) throws InterruptedException {
        Uncaught first = new Uncaught();
        Thread second = new Thread() {
            public void run() {
                int[] none = null;
                none[0]++;
            }
        };
        first.start();
        first.join();
        second.start();
        second.join();
        synchronized (LOCK) {
            System.out.println(first.isAlive() || second.isAlive() ? 0 : 1);
        }
        throw new IllegalArgumentException();
    }
}
