/** What a thread writes is read once it is found alive. Races: FoundAlive.x. */
class FoundAlive extends Thread {
    static int x;

    public void run() {
        x = 1;
    }

    public static void main(String[] args) throws InterruptedException {
        Thread writer = new FoundAlive();
        writer.start();
        if (writer.isAlive()) {
            System.out.println(x);
        }
        writer.join();
    }
}
