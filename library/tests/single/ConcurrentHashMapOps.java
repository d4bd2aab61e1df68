import java.util.concurrent.ConcurrentHashMap;
import java.util.concurrent.ConcurrentMap;
import java.util.Map;
import java.util.Iterator;

/** ConcurrentHashMap, by one thread. */
class ConcurrentHashMapOps {
    static void print(int number) {
        System.out.println(number);
    }

    static void print(boolean is) {
        System.out.println(is ? 1 : 0);
    }

    public static void main(String[] args) throws Exception {
        ConcurrentMap<Integer, Integer> m = new ConcurrentHashMap<Integer, Integer>();
        print(m.put(3, 30) == null);
        print(m.putIfAbsent(3, 31));
        print(m.putIfAbsent(1, 10) == null);
        print(m.replace(1, 11));
        print(m.replace(1, 10, 12));
        print(m.replace(1, 11, 12));
        print(m.replace(9, 1) == null);
        print(m.getOrDefault(9, -9));
        print(m.get(1));
        print(m.remove(3, 31));
        print(m.remove(3, 30));
        print(m.containsKey(3));
        print(m.containsValue(12));
        for (int at = 0; at < 6; at++) {
            m.put(at, at * at);
        }
        for (Map.Entry<Integer, Integer> entry : m.entrySet()) {
            print(entry.getKey());
            print(entry.getValue());
            m.remove(0);
        }
        for (Iterator<Integer> each = m.keySet().iterator(); each.hasNext();) {
            if (each.next() % 2 == 0) {
                each.remove();
            }
        }
        print(m.size());
        for (int value : m.values()) {
            print(value);
        }
        try {
            m.put(1, null);
        } catch (NullPointerException none) {
            print(-1);
        }
        try {
            m.get(null);
        } catch (NullPointerException none) {
            print(-2);
        }
        m.clear();
        print(m.isEmpty());
    }
}
