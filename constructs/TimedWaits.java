/*
 * Threads: `wait` and `join` with a time
 *
 * TimedWaits.java:11: java.lang.Object.wait(long): there is no clock; take wait()
 * TimedWaits.java:13: java.lang.Thread.join(long): there is no clock; take join()
 */
class TimedWaits {
    public static void main(String[] words) throws InterruptedException {
        Object lock = new Object();
        synchronized (lock) {
            lock.wait(1000);
        }
        Thread.currentThread().join(1000);
    }
}
