import java.util.concurrent.ArrayBlockingQueue;

/** One puts twice into a queue of one place, two take once each: nobody waits for ever. */
class QueueWakesTheRight {
    static final ArrayBlockingQueue<Object> queue = new ArrayBlockingQueue<Object>(1);

    static class Taking extends Thread {
        public void run() {
            try {
                queue.take();
            } catch (InterruptedException interrupted) {
                print(-1);
            }
        }
    }

    static void print(int number) {
        System.out.println(number);
    }

    static void print(boolean is) {
        System.out.println(is ? 1 : 0);
    }

    public static void main(String[] args) throws Exception {
        Taking one = new Taking();
        Taking two = new Taking();
        one.start();
        two.start();
        queue.put(new Object());
        queue.put(new Object());
        one.join();
        two.join();
        print(queue.size());
    }
}
