/** Of three threads at most two are inside at once. */
class Semaphore extends Thread {
    static final Semaphore PERMITS = new Semaphore(2);
    static int inside, most, visits;
    private int free;

    Semaphore(int free) {
        this.free = free;
    }

    synchronized void acquire() throws InterruptedException {
        while (free == 0) {
            wait();
        }
        free--;
    }

    synchronized void release() {
        free++;
        notify();
    }

    static synchronized void change(int by) {
        inside += by;
        if (by > 0) {
            visits++;
        }
        if (inside > most) {
            most = inside;
        }
    }

    public void run() {
        try {
            PERMITS.acquire();
            change(1);
            Thread.yield();
            change(-1);
            PERMITS.release();
        } catch (InterruptedException e) {
            System.out.println(-1);
        }
    }

    public static void main(String[] args) throws InterruptedException {
        Semaphore[] all = {new Semaphore(0), new Semaphore(0), new Semaphore(0)};
        for (Semaphore one : all) {
            one.start();
        }
        for (Semaphore one : all) {
            one.join();
        }
        System.out.println(most <= 2 ? 1 : 0);
        System.out.println(visits);
    }
}
