/** What a thread wrote is read once it is found ended. No race. */
class FoundEnded extends Thread {
    static int x;

    public void run() {
        x = 1;
    }

    public static void main(String[] args) throws InterruptedException {
        Thread writer = new FoundEnded();
        writer.start();
        while (writer.isAlive()) {
            Thread.yield();
        }
        System.out.println(x);
    }
}
