import java.util.TreeMap;
import java.util.TreeSet;
import java.util.Map;
import java.util.Collections;
import java.util.NoSuchElementException;

/** TreeMap and TreeSet. */
class TreeMapOps {
    static void print(int number) {
        System.out.println(number);
    }

    static void print(boolean is) {
        System.out.println(is ? 1 : 0);
    }

    public static void main(String[] args) throws Exception {
        TreeMap<Integer, Integer> map = new TreeMap<Integer, Integer>();
        for (int at = 0; at < 20; at++) {
            map.put(at * 13 % 41, at);
        }
        for (Map.Entry<Integer, Integer> entry : map.entrySet()) {
            print(entry.getKey());
            print(entry.getValue());
        }
        print(map.firstKey());
        print(map.lastKey());
        print(map.floorKey(5));
        print(map.ceilingKey(6));
        print(map.lowerKey(13));
        print(map.higherKey(13));
        print(map.lowerKey(0) == null);
        print(map.floorEntry(27).getValue());
        print(map.pollFirstEntry().getKey());
        print(map.pollLastEntry().getKey());
        print(map.put(13, 1313));
        print(map.remove(13));
        print(map.size());
        try {
            map.put(null, 1);
        } catch (NullPointerException none) {
            print(-1);
        }
        TreeMap<Integer, Integer> falling = new TreeMap<Integer, Integer>(Collections.<Integer>reverseOrder());
        falling.putAll(map);
        print(falling.firstKey());
        print(falling.equals(map));
        TreeSet<Integer> set = new TreeSet<Integer>();
        for (int number : new int[] {5, 1, 4, 1, 5, 9, 2, 6}) {
            print(set.add(number));
        }
        for (int each : set) {
            print(each);
        }
        print(set.first());
        print(set.last());
        print(set.floor(3));
        print(set.ceiling(3));
        print(set.lower(1) == null);
        print(set.higher(6));
        print(set.pollFirst());
        print(set.pollLast());
        print(set.remove(4));
        print(set.contains(4));
        set.clear();
        try {
            set.first();
        } catch (NoSuchElementException none) {
            print(-2);
        }
    }
}
