/** What a thread writes is read with no join. Races: NotJoined.x. */
class NotJoined extends Thread {
    static int x;

    public void run() {
        x = 1;
    }

    public static void main(String[] args) throws InterruptedException {
        Thread writer = new NotJoined();
        writer.start();
        System.out.println(x);
        writer.join();
    }
}
