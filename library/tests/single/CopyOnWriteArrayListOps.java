import java.util.concurrent.CopyOnWriteArrayList;
import java.util.Arrays;

/** CopyOnWriteArrayList, by one thread. */
class CopyOnWriteArrayListOps {
    static void print(int number) {
        System.out.println(number);
    }

    static void print(boolean is) {
        System.out.println(is ? 1 : 0);
    }

    public static void main(String[] args) throws Exception {
        CopyOnWriteArrayList<Integer> list = new CopyOnWriteArrayList<Integer>();
        print(list.add(5));
        list.add(6);
        list.add(1, 7);
        for (int each : list) {
            print(each);
            list.add(9);
        }
        print(list.size());
        print(list.addIfAbsent(9));
        print(list.addIfAbsent(10));
        print(list.set(0, 50));
        print(list.get(0));
        print(list.remove(1));
        print(list.remove((Object) 6));
        print(list.remove((Object) 60));
        print(list.indexOf(9));
        print(list.lastIndexOf(9));
        print(list.contains(10));
        print(list.removeAll(Arrays.asList(9)));
        print(list.size());
        try {
            list.iterator().remove();
        } catch (UnsupportedOperationException fixed) {
            print(-1);
        }
        try {
            list.get(7);
        } catch (IndexOutOfBoundsException outside) {
            print(-2);
        }
        list.clear();
        print(list.isEmpty());
    }
}
