import java.util.concurrent.ConcurrentHashMap;

/** Two threads put a key that is absent: one of them does, and both see its value. */
class PutIfAbsentOnce {
    static void print(int number) {
        System.out.println(number);
    }

    static void print(boolean is) {
        System.out.println(is ? 1 : 0);
    }

    public static void main(String[] args) throws Exception {
        final ConcurrentHashMap<Object, int[]> map = new ConcurrentHashMap<Object, int[]>();
        final Object key = new Object();
        final boolean[] put = new boolean[1];
        Thread one = new Thread() {
            public void run() {
                put[0] = map.putIfAbsent(key, new int[] {1}) == null;
            }
        };
        one.start();
        boolean mine = map.putIfAbsent(key, new int[] {2}) == null;
        one.join();
        print(mine);
        print(put[0]);
        print(map.get(key)[0]);
    }
}
