import java.util.concurrent.ArrayBlockingQueue;
import java.util.ArrayList;
import java.util.List;
import java.util.Iterator;

/** ArrayBlockingQueue, by one thread. */
class ArrayBlockingQueueOps {
    static void print(int number) {
        System.out.println(number);
    }

    static void print(boolean is) {
        System.out.println(is ? 1 : 0);
    }

    public static void main(String[] args) throws Exception {
        ArrayBlockingQueue<Integer> q = new ArrayBlockingQueue<Integer>(3);
        print(q.poll() == null);
        print(q.peek() == null);
        q.put(1);
        print(q.offer(2));
        print(q.add(3));
        print(q.offer(4));
        try {
            q.add(4);
        } catch (IllegalStateException full) {
            print(-1);
        }
        print(q.size());
        print(q.remainingCapacity());
        print(q.peek());
        print(q.take());
        q.put(4);
        print(q.contains(4));
        print(q.remove(3));
        print(q.remove(3));
        for (int each : q) {
            print(each);
        }
        List<Integer> into = new ArrayList<Integer>();
        print(q.drainTo(into, 1));
        print(q.drainTo(into));
        print(into.get(1));
        print(q.isEmpty());
        try {
            q.remove();
        } catch (java.util.NoSuchElementException none) {
            print(-2);
        }
        try {
            q.offer(null);
        } catch (NullPointerException none) {
            print(-3);
        }
        Thread.currentThread().interrupt();
        try {
            q.take();
        } catch (InterruptedException interrupted) {
            print(-4);
        }
        try {
            new ArrayBlockingQueue<Integer>(0);
        } catch (IllegalArgumentException none) {
            print(-5);
        }
        q.offer(5);
        q.clear();
        print(q.size());
    }
}
