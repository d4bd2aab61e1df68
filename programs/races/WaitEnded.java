/** The end of a thread ends a wait on its Thread object. No race. */
class WaitEnded extends Thread {
    static int x;

    public void run() {
        x = 1;
    }

    public static void main(String[] args) throws InterruptedException {
        Thread writer = new WaitEnded();
        synchronized (writer) {
            writer.start();
            writer.wait();
        }
        System.out.println(x);
    }
}
