/** Two threads add 1 to a number, each in a synchronized method. */
class Repaired extends Thread {
    static int count;

    static synchronized void add() {
        count = count + 1;
    }

    public void run() {
        add();
    }

    public static void main(String[] args) throws InterruptedException {
        Thread first = new Repaired();
        Thread second = new Repaired();
        first.start();
        second.start();
        first.join();
        second.join();
        System.out.println(count);
    }
}
