import java.util.concurrent.LinkedBlockingQueue;
import java.util.Arrays;

/** LinkedBlockingQueue, by one thread. */
class LinkedBlockingQueueOps {
    static void print(int number) {
        System.out.println(number);
    }

    static void print(boolean is) {
        System.out.println(is ? 1 : 0);
    }

    public static void main(String[] args) throws Exception {
        LinkedBlockingQueue<Integer> q = new LinkedBlockingQueue<Integer>();
        for (int at = 0; at < 5; at++) {
            q.put(at);
        }
        print(q.remainingCapacity());
        print(q.remove(4));
        q.add(9);
        print(q.remove(0));
        print(q.remove(2));
        Object[] all = q.toArray();
        print(all.length);
        while (!q.isEmpty()) {
            print(q.poll());
        }
        LinkedBlockingQueue<Integer> one = new LinkedBlockingQueue<Integer>(1);
        print(one.offer(1));
        print(one.offer(2));
        print(one.element());
        print(one.remove());
        LinkedBlockingQueue<Integer> of = new LinkedBlockingQueue<Integer>(Arrays.asList(3, 1, 2));
        print(of.take());
        print(of.take());
        print(of.size());
    }
}
