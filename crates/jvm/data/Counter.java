/** Two threads add 1 to a number, with no monitor. */
class Counter extends Thread {
    static int count;

    public void run() {
        count = count + 1;
    }

    public static void main(String[] args) throws InterruptedException {
        Counter first = new Counter();
        Counter second = new Counter();
        first.start();
        second.start();
        first.join();
        second.join();
        System.out.println(count);
    }
}
