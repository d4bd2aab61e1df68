/** A class that is initialised by the first thread that uses it, while another one waits for it. */
class Holder extends Thread {
    static class Lazy {
        static int made;
        static final Lazy ONLY = new Lazy();
        final int number;

        Lazy() {
            int sum = 0;
            for (int i = 1; i <= 10; i++) {
                sum += i;
            }
            number = sum;
            made++;
        }
    }

    int seen;

    public void run() {
        seen = Lazy.ONLY.number;
    }

    public static void main(String[] args) throws InterruptedException {
        Holder first = new Holder();
        Holder second = new Holder();
        first.start();
        second.start();
        System.out.println(Lazy.ONLY.number);
        first.join();
        second.join();
        System.out.println(first.seen + second.seen);
        System.out.println(Lazy.made);
    }
}
