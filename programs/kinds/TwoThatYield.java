/** Two threads yield to one another for ever. Kinds: endless. */
class TwoThatYield extends Thread {
    public void run() {
        while (true) {
            Thread.yield();
        }
    }

    public static void main(String[] args) {
        new TwoThatYield().start();
        while (true) {
            Thread.yield();
        }
    }
}
