/** What is written behind a start is not. Races: StartedBefore.x. */
class StartedBefore extends Thread {
    static int x;

    public void run() {
        System.out.println(x);
    }

    public static void main(String[] args) throws InterruptedException {
        Thread reader = new StartedBefore();
        reader.start();
        x = 1;
        reader.join();
    }
}
