import java.util.ArrayList;
import java.util.Arrays;
import java.util.List;
import java.util.ListIterator;
import java.util.Iterator;
import java.util.ConcurrentModificationException;
import java.util.NoSuchElementException;

/** ArrayList and its iterators. */
class ArrayListOps {
    static void print(int number) {
        System.out.println(number);
    }

    static void print(boolean is) {
        System.out.println(is ? 1 : 0);
    }

    public static void main(String[] args) throws Exception {
        List<Integer> list = new ArrayList<Integer>();
        for (int at = 0; at < 25; at++) {
            list.add(at * 3);
        }
        print(list.size());
        print(list.get(24));
        list.add(0, -1);
        list.add(26, 99);
        print(list.remove(1));
        print(list.remove((Object) 99));
        print(list.remove((Object) 98));
        print(list.set(0, 1000));
        print(list.indexOf(30));
        print(list.lastIndexOf(31));
        print(list.contains(72));
        print(list.subList(2, 4).get(1));
        print(list.addAll(1, Arrays.asList(7, 8)));
        print(list.get(2));
        print(list.retainAll(Arrays.asList(7, 8, 1000)));
        print(list.size());
        print(list.equals(Arrays.asList(1000, 7, 8)));
        print(list.equals(Arrays.asList(1000, 7)));
        print(list.hashCode());
        ListIterator<Integer> both = list.listIterator();
        print(both.next());
        both.add(5);
        print(both.next());
        both.set(6);
        print(both.previous());
        both.remove();
        print(both.nextIndex());
        print(both.hasPrevious());
        for (int each : list) {
            print(each);
        }
        try {
            for (int each : list) {
                list.add(each);
            }
        } catch (ConcurrentModificationException changed) {
            print(-1);
        }
        try {
            list.get(list.size());
        } catch (IndexOutOfBoundsException outside) {
            print(-2);
        }
        Iterator<Integer> each = new ArrayList<Integer>().iterator();
        try {
            each.next();
        } catch (NoSuchElementException none) {
            print(-3);
        }
        Integer[] array = list.toArray(new Integer[list.size()]);
        print(array[0]);
        print(list.containsAll(Arrays.asList(5, 8)));
        print(list.removeAll(Arrays.asList(5, 8)));
        list.clear();
        print(list.isEmpty());
        print(new ArrayList<Integer>(Arrays.asList(4, 5)).size());
    }
}
