/** Two threads add 1 to a number, with no monitor. */
class LostUpdate extends Thread {
    static int count;

    public void run() {
        count = count + 1;
    }

    public static void main(String[] args) throws InterruptedException {
        Thread first = new LostUpdate();
        Thread second = new LostUpdate();
        first.start();
        second.start();
        first.join();
        second.join();
        System.out.println(count);
    }
}
