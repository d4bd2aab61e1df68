import java.util.concurrent.PriorityBlockingQueue;
import java.util.PriorityQueue;
import java.util.Comparator;
import java.util.Queue;

/** PriorityQueue and PriorityBlockingQueue, by one thread. */
class PriorityQueues {
    static void print(int number) {
        System.out.println(number);
    }

    static void print(boolean is) {
        System.out.println(is ? 1 : 0);
    }

    public static void main(String[] args) throws Exception {
        int[] numbers = {5, 3, 9, 1, 7, 3, 8};
        Comparator<Integer> falling = new Comparator<Integer>() {
            public int compare(Integer a, Integer b) {
                return b - a;
            }
        };
        Queue<Integer> plain = new PriorityQueue<Integer>();
        Queue<Integer> other = new PriorityQueue<Integer>(11, falling);
        PriorityBlockingQueue<Integer> third = new PriorityBlockingQueue<Integer>();
        PriorityBlockingQueue<Integer> fourth = new PriorityBlockingQueue<Integer>(4, falling);
        for (int number : numbers) {
            plain.add(number);
            other.offer(number);
            third.put(number);
            fourth.add(number);
        }
        print(plain.peek());
        print(plain.remove(9));
        print(plain.contains(9));
        for (int each : plain) {
            print(each);
        }
        while (!plain.isEmpty()) {
            print(plain.poll());
            print(other.remove());
            print(third.take());
            print(fourth.poll());
        }
        print(other.size());
        print(plain.peek() == null);
        print(third.remove(9));
        print(third.size());
    }
}
