/** main joins a thread that is alive, though it was interrupted: that throws. Later it joins in peace. */
class InterruptedJoin extends Thread {
    private boolean mayEnd;

    public synchronized void run() {
        while (!mayEnd) {
            try {
                wait();
            } catch (InterruptedException e) {
                System.out.println(-1);
            }
        }
        System.out.println(2);
    }

    synchronized void end() {
        mayEnd = true;
        notify();
    }

    public static void main(String[] args) throws InterruptedException {
        InterruptedJoin other = new InterruptedJoin();
        other.start();
        Thread.currentThread().interrupt();
        try {
            other.join();
        } catch (InterruptedException e) {
            System.out.println(1);
        }
        other.end();
        other.join();
        Thread.currentThread().interrupt();
        other.join();
        System.out.println(Thread.interrupted() ? 3 : 0);
        System.out.println(other.isAlive() ? 0 : 4);
    }
}
