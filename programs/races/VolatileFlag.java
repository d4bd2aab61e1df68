/** A volatile flag hands a number over. No race. */
class VolatileFlag extends Thread {
    static volatile boolean ready;
    static int x;

    public void run() {
        while (!ready) {
            Thread.yield();
        }
        System.out.println(x);
    }

    public static void main(String[] args) throws InterruptedException {
        Thread reader = new VolatileFlag();
        reader.start();
        x = 1;
        ready = true;
        reader.join();
    }
}
