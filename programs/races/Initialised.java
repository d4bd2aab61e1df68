/** What the initialiser of a class wrote is read by who needs the class. No race. */
class Initialised extends Thread {
    public void run() {
        System.out.println(Made.x);
    }

    public static void main(String[] args) throws InterruptedException {
        Thread first = new Initialised();
        Thread second = new Initialised();
        first.start();
        second.start();
        first.join();
        second.join();
    }
}

class Made {
    static int x = one();

    static int one() {
        return 1;
    }
}
