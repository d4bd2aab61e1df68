import java.util.concurrent.ArrayBlockingQueue;
import java.util.concurrent.BlockingQueue;

/** Three stages, joined by queues. */
class Pipeline {
    static class Stage implements Runnable {
        private final BlockingQueue<Integer> in;
        private final BlockingQueue<Integer> out;
        private final int add;

        Stage(BlockingQueue<Integer> in, BlockingQueue<Integer> out, int add) {
            this.in = in;
            this.out = out;
            this.add = add;
        }

        public void run() {
            try {
                while (true) {
                    int next = in.take();
                    out.put(next < 0 ? next : next + add);
                    if (next < 0) {
                        return;
                    }
                }
            } catch (InterruptedException e) {
                System.out.println(-100);
            }
        }
    }

    public static void main(String[] args) throws Exception {
        BlockingQueue<Integer> first = new ArrayBlockingQueue<Integer>(1);
        BlockingQueue<Integer> second = new ArrayBlockingQueue<Integer>(1);
        BlockingQueue<Integer> third = new ArrayBlockingQueue<Integer>(1);
        new Thread(new Stage(first, second, 1)).start();
        new Thread(new Stage(second, third, 100)).start();
        for (int i = 0; i < 4; i++) {
            first.put(i);
            System.out.println((int) third.take());
        }
        first.put(-1);
        System.out.println((int) third.take());
    }
}
