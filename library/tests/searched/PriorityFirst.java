import java.util.concurrent.PriorityBlockingQueue;

/** Of what is in a PriorityBlockingQueue the least comes first. */
class PriorityFirst {
    static void print(int number) {
        System.out.println(number);
    }

    static void print(boolean is) {
        System.out.println(is ? 1 : 0);
    }

    public static void main(String[] args) throws Exception {
        final PriorityBlockingQueue<Integer> queue = new PriorityBlockingQueue<Integer>();
        final Integer two = 2;
        Thread one = new Thread() {
            public void run() {
                queue.put(two);
            }
        };
        one.start();
        queue.put(3);
        print(queue.take());
        print(queue.take());
        one.join();
    }
}
