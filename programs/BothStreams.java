/** What System.out and System.err print stands in one text, in the order of the calls. */
class BothStreams extends Thread {
    final int number;

    BothStreams(int number) {
        this.number = number;
    }

    public void run() {
        System.err.println("thread " + number);
        System.out.println("thread " + number);
        System.err.println(number);
    }

    public static void main(String[] args) throws InterruptedException {
        System.out.print("out ");
        System.err.print("err ");
        System.err.print('c');
        System.out.print(' ');
        System.err.print(7);
        System.err.println();
        System.err.println(System.out == System.err);
        System.out.print(System.err != null);
        System.err.println(" of err");
        for (int number = 1; number <= 2; number++) {
            BothStreams other = new BothStreams(number);
            other.start();
            other.join();
        }
        synchronized (System.err) {
            System.err.print("no line feed");
        }
    }
}
