import java.util.concurrent.CountDownLatch;
import java.util.concurrent.atomic.AtomicInteger;

/** Workers wait for a start signal, and main for all of them. */
class LatchStart {
    public static void main(String[] args) throws Exception {
        final CountDownLatch start = new CountDownLatch(1);
        final CountDownLatch done = new CountDownLatch(3);
        final AtomicInteger sum = new AtomicInteger();
        for (int i = 1; i <= 3; i++) {
            final int number = i;
            new Thread(new Runnable() {
                public void run() {
                    try {
                        start.await();
                        sum.addAndGet(number);
                        done.countDown();
                    } catch (InterruptedException e) {
                        sum.set(-100);
                    }
                }
            }).start();
        }
        System.out.println(sum.get());
        start.countDown();
        done.await();
        System.out.println(sum.get());
    }
}
