/** What a thread wrote is read behind its join. No race. */
class Joined extends Thread {
    static int x;

    public void run() {
        x = 1;
    }

    public static void main(String[] args) throws InterruptedException {
        Thread writer = new Joined();
        writer.start();
        writer.join();
        System.out.println(x);
    }
}
