import java.util.ArrayDeque;
import java.util.Deque;
import java.util.Iterator;
import java.util.NoSuchElementException;

/** ArrayDeque. */
class DequeOps {
    static void print(int number) {
        System.out.println(number);
    }

    static void print(boolean is) {
        System.out.println(is ? 1 : 0);
    }

    public static void main(String[] args) throws Exception {
        Deque<Integer> deque = new ArrayDeque<Integer>(2);
        for (int at = 0; at < 9; at++) {
            if (at % 3 == 0) {
                deque.addFirst(at);
            } else {
                deque.addLast(at);
            }
        }
        print(deque.size());
        for (int each : deque) {
            print(each);
        }
        Iterator<Integer> each = deque.iterator();
        while (each.hasNext()) {
            if (each.next() % 2 == 0) {
                each.remove();
            }
        }
        for (Iterator<Integer> back = deque.descendingIterator(); back.hasNext();) {
            print(back.next());
        }
        print(deque.pop());
        deque.push(50);
        print(deque.peek());
        print(deque.pollLast());
        print(deque.removeFirst());
        print(deque.contains(1));
        print(deque.remove(1));
        print(deque.size());
        deque.clear();
        print(deque.pollFirst() == null);
        try {
            deque.removeLast();
        } catch (NoSuchElementException none) {
            print(-1);
        }
        try {
            deque.add(null);
        } catch (NullPointerException none) {
            print(-2);
        }
    }
}
