/*
 * Threads: threads: `start`, `run`, `join`, `isAlive`, `currentThread`, `yield`
 *
 * It works.
 */
class Threads extends Thread {
    public void run() {
        Thread.yield();
        System.out.println(Thread.currentThread() == this ? 7 : 0);
    }

    public static void main(String[] words) throws InterruptedException {
        Thread one = new Threads();
        one.start();
        Thread other = new Thread(new Runnable() {
            public void run() {
                System.out.println(8);
            }
        });
        other.start();
        one.join();
        System.out.println(one.isAlive() ? 1 : 0);
    }
}
