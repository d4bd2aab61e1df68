/*
 * Threads: `wait()`, `notify` and `notifyAll`
 *
 * It works.
 */
class WaitAndNotify implements Runnable {
    boolean is;

    public synchronized void run() {
        is = true;
        notifyAll();
    }

    public static void main(String[] words) throws InterruptedException {
        WaitAndNotify task = new WaitAndNotify();
        new Thread(task).start();
        synchronized (task) {
            while (!task.is) {
                task.wait();
            }
            task.notify();
        }
    }
}
