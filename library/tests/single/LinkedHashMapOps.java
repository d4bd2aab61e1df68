import java.util.LinkedHashMap;
import java.util.LinkedHashSet;
import java.util.Map;
import java.util.Set;
import java.util.Iterator;

/** LinkedHashMap and LinkedHashSet. */
class LinkedHashMapOps {
    static void print(int number) {
        System.out.println(number);
    }

    static void print(boolean is) {
        System.out.println(is ? 1 : 0);
    }

    public static void main(String[] args) throws Exception {
        Map<Integer, Integer> map = new LinkedHashMap<Integer, Integer>();
        for (int at = 20; at > 0; at--) {
            map.put(at * 7 % 23, at);
        }
        map.remove(5);
        map.put(5, 500);
        map.put(1, 100);
        for (Iterator<Map.Entry<Integer, Integer>> each = map.entrySet().iterator(); each.hasNext();) {
            Map.Entry<Integer, Integer> entry = each.next();
            if (entry.getKey() % 2 == 0) {
                each.remove();
            }
        }
        for (int key : map.keySet()) {
            print(key);
            print(map.get(key));
        }
        Map<Integer, Integer> last = new LinkedHashMap<Integer, Integer>() {
            protected boolean removeEldestEntry(Map.Entry<Integer, Integer> eldest) {
                return size() > 3;
            }
        };
        for (int at = 0; at < 6; at++) {
            last.put(at, at);
        }
        for (int key : last.keySet()) {
            print(key);
        }
        Set<Integer> set = new LinkedHashSet<Integer>();
        print(set.add(5));
        print(set.add(3));
        print(set.add(5));
        set.add(4);
        for (int each : set) {
            print(each);
        }
        print(set.remove(3));
        print(set.size());
    }
}
