/** What is written before an interrupt is read by who finds it. No race. */
class Interrupted extends Thread {
    static int x;

    public void run() {
        try {
            synchronized (this) {
                wait();
            }
        } catch (InterruptedException caught) {
            System.out.println(x);
        }
    }

    public static void main(String[] args) throws InterruptedException {
        Thread reader = new Interrupted();
        reader.start();
        x = 1;
        reader.interrupt();
        reader.join();
    }
}
