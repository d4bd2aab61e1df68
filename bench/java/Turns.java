/** Two threads that do the same, each to an object of its own. */
public class Turns extends Thread {
    int count;

    public void run() {
        for (int i = 0; i < 100000; i++) {
            count += i;
        }
    }

    public static void main(String[] words) throws InterruptedException {
        Turns one = new Turns();
        Turns other = new Turns();
        other.start();
        one.run();
        other.join();
        System.out.println(one.count + other.count);
    }
}
