import java.util.concurrent.CountDownLatch;

/** One that waits at a latch sees what was done before it was counted down. */
class LatchOpens {
    static void print(int number) {
        System.out.println(number);
    }

    static void print(boolean is) {
        System.out.println(is ? 1 : 0);
    }

    public static void main(String[] args) throws Exception {
        final CountDownLatch latch = new CountDownLatch(2);
        final int[] value = new int[2];
        Thread one = new Thread() {
            public void run() {
                value[0] = 3;
                latch.countDown();
            }
        };
        Thread two = new Thread() {
            public void run() {
                value[1] = 4;
                latch.countDown();
            }
        };
        one.start();
        two.start();
        latch.await();
        print(value[0] + value[1]);
    }
}
