/** Each of two threads prints "at 0!" and "at 1!", in one piece a line. Races. */
class Counted extends Thread {
    public void run() {
        for (int count = 0; count < 2; count++) {
            System.out.println("at " + count + "!");
        }
    }

    public static void main(String[] args) {
        new Counted().start();
        new Counted().start();
    }
}
