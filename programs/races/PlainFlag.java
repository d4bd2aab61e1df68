/** A flag that is not volatile hands a number over. Races: PlainFlag.ready, PlainFlag.x. */
class PlainFlag extends Thread {
    static boolean ready;
    static int x;

    public void run() {
        while (!ready) {
            Thread.yield();
        }
        System.out.println(x);
    }

    public static void main(String[] args) throws InterruptedException {
        Thread reader = new PlainFlag();
        reader.start();
        x = 1;
        ready = true;
        reader.join();
    }
}
