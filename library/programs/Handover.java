import java.util.concurrent.SynchronousQueue;

/** A SynchronousQueue hands each number over. */
class Handover {
    public static void main(String[] args) throws Exception {
        final SynchronousQueue<Integer> queue = new SynchronousQueue<Integer>();
        Thread giver = new Thread() {
            public void run() {
                try {
                    for (int i = 0; i < 4; i++) {
                        queue.put(i);
                    }
                } catch (InterruptedException e) {
                    System.out.println(-1);
                }
            }
        };
        giver.start();
        for (int i = 0; i < 4; i++) {
            System.out.println((int) queue.take());
        }
    }
}
