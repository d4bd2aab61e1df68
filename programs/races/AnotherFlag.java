/** A volatile variable is written, and another one is read. Races: AnotherFlag.x. */
class AnotherFlag extends Thread {
    static volatile int one;
    static volatile int other;
    static int x;

    public void run() {
        int seen = other;
        System.out.println(x);
    }

    public static void main(String[] args) throws InterruptedException {
        Thread reader = new AnotherFlag();
        reader.start();
        x = 1;
        one = 1;
        reader.join();
    }
}
