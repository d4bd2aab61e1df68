/** Two threads that go in a circle for ever. */
public class Spins extends Thread {
    static void spin() {
        int turns = 0;
        while (true) {
            turns++;
        }
    }

    public void run() {
        spin();
    }

    public static void main(String[] words) {
        new Spins().start();
        spin();
    }
}
