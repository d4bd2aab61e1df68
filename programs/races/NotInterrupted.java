/** It is read by a thread that finds no interrupt. Races: NotInterrupted.x. */
class NotInterrupted extends Thread {
    static int x;

    public void run() {
        boolean was = Thread.interrupted();
        System.out.println(x);
    }

    public static void main(String[] args) throws InterruptedException {
        Thread reader = new NotInterrupted();
        reader.start();
        x = 1;
        reader.interrupt();
        reader.join();
    }
}
