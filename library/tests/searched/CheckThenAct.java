import java.util.concurrent.ConcurrentHashMap;

/** get and then put of a ConcurrentHashMap is no one step: an addition may be lost. */
class CheckThenAct {
    static void print(int number) {
        System.out.println(number);
    }

    static void print(boolean is) {
        System.out.println(is ? 1 : 0);
    }

    public static void main(String[] args) throws Exception {
        final ConcurrentHashMap<Object, Integer> map = new ConcurrentHashMap<Object, Integer>();
        final Object key = new Object();
        final Integer two = 2;
        map.put(key, 0);
        map.put(two, 0);
        Thread one = new Thread() {
            public void run() {
                map.put(key, map.get(key) + 1);
            }
        };
        one.start();
        map.put(key, map.get(key) + 1);
        one.join();
        print(map.get(key));
    }
}
