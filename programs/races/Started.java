/** What is written before a start is read by the thread. No race. */
class Started extends Thread {
    static int x;

    public void run() {
        System.out.println(x);
    }

    public static void main(String[] args) throws InterruptedException {
        x = 1;
        Thread reader = new Started();
        reader.start();
        reader.join();
    }
}
