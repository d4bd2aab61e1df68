import java.util.HashMap;
import java.util.Map;
import java.util.Iterator;
import java.util.ConcurrentModificationException;

/** HashMap: its operations and its order. */
class HashMapOps {
    static void print(int number) {
        System.out.println(number);
    }

    static void print(boolean is) {
        System.out.println(is ? 1 : 0);
    }

    public static void main(String[] args) throws Exception {
        Map<Integer, Integer> map = new HashMap<Integer, Integer>();
        int key = 7;
        for (int at = 0; at < 40; at++) {
            map.put(key, at);
            key = key * 31 + 17;
        }
        for (Map.Entry<Integer, Integer> entry : map.entrySet()) {
            print(entry.getKey());
            print(entry.getValue());
        }
        print(map.size());
        print(map.get(7));
        print(map.put(7, 70));
        print(map.remove(7));
        print(map.remove(7) == null);
        print(map.getOrDefault(7, -7));
        print(map.putIfAbsent(7, 71) == null);
        print(map.containsKey(7));
        print(map.containsValue(71));
        print(map.containsValue(7100));
        map.put(null, 5);
        print(map.get(null));
        map.keySet().retainAll(java.util.Arrays.asList(7, null, 234));
        for (Iterator<Integer> each = map.values().iterator(); each.hasNext();) {
            print(each.next());
        }
        map.entrySet().iterator().next().setValue(9);
        print(map.get(null));
        print(map.hashCode());
        Map<Integer, Integer> copy = new HashMap<Integer, Integer>(map);
        print(copy.equals(map));
        copy.put(8, 8);
        print(copy.equals(map));
        try {
            for (int each : copy.keySet()) {
                copy.remove(8);
            }
        } catch (NullPointerException none) {
            print(-1);
        }
        copy.remove(null);
        copy.put(9, 9);
        copy.put(10, 9);
        try {
            for (int each : copy.keySet()) {
                copy.put(100 + each, 1);
            }
        } catch (ConcurrentModificationException changed) {
            print(-2);
        }
        Map<Character, Boolean> letters = new HashMap<Character, Boolean>();
        letters.put('z', true);
        letters.put('a', false);
        letters.put('\u1234', true);
        for (char each : letters.keySet()) {
            print(each);
        }
        print(letters.get('z'));
        map.clear();
        print(map.isEmpty());
    }
}
