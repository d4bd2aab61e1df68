import java.util.concurrent.ArrayBlockingQueue;

/** offer doesn't wait: of two that offer one place, one gets it. */
class OfferOrPut {
    static void print(int number) {
        System.out.println(number);
    }

    static void print(boolean is) {
        System.out.println(is ? 1 : 0);
    }

    public static void main(String[] args) throws Exception {
        final ArrayBlockingQueue<Object> queue = new ArrayBlockingQueue<Object>(1);
        final boolean[] put = new boolean[1];
        Thread one = new Thread() {
            public void run() {
                put[0] = queue.offer(this);
            }
        };
        one.start();
        boolean mine = queue.offer(one);
        one.join();
        print(mine);
        print(put[0]);
        print(queue.size());
    }
}
