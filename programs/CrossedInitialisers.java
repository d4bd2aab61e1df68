/** Two classes whose initialisers use each other, begun by two threads: each may wait for the other. Races. */
class CrossedInitialisers extends Thread {
    static class Left {
        static int value = Right.half() + 1;

        static int half() {
            return 10;
        }
    }

    static class Right {
        static int value = Left.half() + 2;

        static int half() {
            return 20;
        }
    }

    public void run() {
        System.out.println(Left.value);
    }

    public static void main(String[] args) throws InterruptedException {
        CrossedInitialisers other = new CrossedInitialisers();
        other.start();
        System.out.println(Right.value);
        other.join();
    }
}
