/** Two threads add 1 to a field under one lock; main reads it behind the joins. No race. */
class OneLock extends Thread {
    static int n;

    public void run() {
        synchronized (OneLock.class) {
            n = n + 1;
        }
    }

    public static void main(String[] args) throws InterruptedException {
        Thread first = new OneLock();
        Thread second = new OneLock();
        first.start();
        second.start();
        first.join();
        second.join();
        System.out.println(n);
    }
}
