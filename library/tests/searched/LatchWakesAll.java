import java.util.concurrent.CountDownLatch;

/** A latch lets all go on that wait. */
class LatchWakesAll {
    static void print(int number) {
        System.out.println(number);
    }

    static void print(boolean is) {
        System.out.println(is ? 1 : 0);
    }

    public static void main(String[] args) throws Exception {
        final CountDownLatch latch = new CountDownLatch(1);
        Thread one = new Thread() {
            public void run() {
                try {
                    latch.await();
                } catch (InterruptedException interrupted) {
                    print(-1);
                }
            }
        };
        Thread two = new Thread() {
            public void run() {
                latch.countDown();
            }
        };
        one.start();
        two.start();
        latch.await();
        one.join();
        print(1);
    }
}
