import java.util.concurrent.ConcurrentHashMap;

/** A thread removes a key of a ConcurrentHashMap, another puts one of the same bucket, and gets a third one. */
class RemovesAndPuts {
    static final class Key {
        public int hashCode() {
            return 7;
        }
    }

    public static void main(String[] args) throws Exception {
        final ConcurrentHashMap<Key, String> map = new ConcurrentHashMap<Key, String>();
        final Key first = new Key();
        final Key second = new Key();
        map.put(first, "a");
        map.put(second, "b");
        Thread one = new Thread() {
            public void run() {
                map.remove(second);
            }
        };
        one.start();
        map.put(new Key(), "c");
        String read = map.get(second);
        one.join();
        System.out.println(read);
        System.out.println(map.size());
        System.out.println(map.values());
    }
}
