/** A volatile flag is set before the number is written. Races: FlagBefore.x. */
class FlagBefore extends Thread {
    static volatile boolean ready;
    static int x;

    public void run() {
        while (!ready) {
            Thread.yield();
        }
        System.out.println(x);
    }

    public static void main(String[] args) throws InterruptedException {
        Thread reader = new FlagBefore();
        reader.start();
        ready = true;
        x = 1;
        reader.join();
    }
}
