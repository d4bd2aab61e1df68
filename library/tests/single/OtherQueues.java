import java.util.concurrent.SynchronousQueue;
import java.util.concurrent.ConcurrentLinkedQueue;

/** SynchronousQueue and ConcurrentLinkedQueue, by one thread. */
class OtherQueues {
    static void print(int number) {
        System.out.println(number);
    }

    static void print(boolean is) {
        System.out.println(is ? 1 : 0);
    }

    public static void main(String[] args) throws Exception {
        SynchronousQueue<Integer> s = new SynchronousQueue<Integer>();
        print(s.offer(1));
        print(s.poll() == null);
        print(s.peek() == null);
        print(s.size());
        print(s.isEmpty());
        print(s.remainingCapacity());
        ConcurrentLinkedQueue<Integer> q = new ConcurrentLinkedQueue<Integer>();
        print(q.poll() == null);
        q.add(1);
        q.offer(2);
        q.add(3);
        print(q.peek());
        print(q.size());
        print(q.remove(2));
        print(q.contains(2));
        for (int each : q) {
            print(each);
        }
        print(q.poll());
        print(q.element());
        print(q.poll());
        print(q.isEmpty());
    }
}
