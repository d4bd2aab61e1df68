import java.util.Map;
import java.util.concurrent.ConcurrentHashMap;
import java.util.concurrent.ConcurrentMap;

/** Threads count into a ConcurrentHashMap, by putIfAbsent and replace. */
class WordCount {
    static void add(ConcurrentMap<Integer, Integer> counts, int key) {
        while (true) {
            Integer old = counts.putIfAbsent(key, 1);
            if (old == null || counts.replace(key, old, old + 1)) {
                return;
            }
        }
    }

    public static void main(String[] args) throws Exception {
        final ConcurrentMap<Integer, Integer> counts = new ConcurrentHashMap<Integer, Integer>();
        Thread[] threads = new Thread[2];
        for (int t = 0; t < 2; t++) {
            threads[t] = new Thread() {
                public void run() {
                    for (int i = 0; i < 12; i++) {
                        add(counts, i % 3);
                    }
                }
            };
            threads[t].start();
        }
        threads[0].join();
        threads[1].join();
        for (Map.Entry<Integer, Integer> entry : counts.entrySet()) {
            System.out.println((int) entry.getKey());
            System.out.println((int) entry.getValue());
        }
    }
}
