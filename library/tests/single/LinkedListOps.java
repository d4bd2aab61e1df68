import java.util.LinkedList;
import java.util.Iterator;
import java.util.NoSuchElementException;

/** LinkedList as a list and as a queue with two ends. */
class LinkedListOps {
    static void print(int number) {
        System.out.println(number);
    }

    static void print(boolean is) {
        System.out.println(is ? 1 : 0);
    }

    public static void main(String[] args) throws Exception {
        LinkedList<Integer> list = new LinkedList<Integer>();
        list.add(1);
        list.addFirst(0);
        list.addLast(2);
        list.push(-1);
        list.offer(3);
        list.add(2, 77);
        print(list.size());
        for (int each : list) {
            print(each);
        }
        print(list.get(2));
        print(list.set(2, 78));
        print(list.remove(2));
        print(list.peekFirst());
        print(list.peekLast());
        print(list.pollFirst());
        print(list.pollLast());
        print(list.pop());
        print(list.indexOf(2));
        print(list.removeLastOccurrence(2));
        print(list.contains(2));
        list.add(5);
        list.add(6);
        Iterator<Integer> back = list.descendingIterator();
        while (back.hasNext()) {
            int each = back.next();
            print(each);
            if (each == 5) {
                back.remove();
            }
        }
        print(list.getFirst());
        print(list.getLast());
        print(list.removeLast());
        print(list.remove());
        try {
            list.getFirst();
        } catch (NoSuchElementException none) {
            print(-1);
        }
        print(list.poll() == null);
        print(list.peek() == null);
    }
}
