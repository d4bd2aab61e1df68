import java.util.ArrayList;
import java.util.HashMap;
import java.util.List;
import java.util.Map;
import java.util.TreeMap;
import java.util.concurrent.Callable;
import java.util.concurrent.ExecutionException;
import java.util.concurrent.ExecutorService;
import java.util.concurrent.Executors;
import java.util.concurrent.Future;

/** A pool counts the words of each line; the counts are added up, and a line that is wrong is told. */
class CountedInParts {
    static final class Count implements Callable<Map<String, Integer>> {
        private final String line;

        Count(String line) {
            this.line = line;
        }

        @Override
        public Map<String, Integer> call() {
            Map<String, Integer> counts = new HashMap<String, Integer>();
            String rest = line.trim();
            if (rest.isEmpty()) {
                throw new IllegalArgumentException("an empty line");
            }
            while (!rest.isEmpty()) {
                int space = rest.indexOf(' ');
                String word = space < 0 ? rest : rest.substring(0, space);
                counts.put(word, counts.getOrDefault(word, 0) + 1);
                rest = space < 0 ? "" : rest.substring(space + 1).trim();
            }
            return counts;
        }
    }

    public static void main(String[] args) throws InterruptedException {
        String[] lines = {"the cat and the dog", "a dog  and a bird", "   ", "the bird sings"};
        ExecutorService pool = Executors.newFixedThreadPool(2);
        List<Future<Map<String, Integer>>> results = new ArrayList<Future<Map<String, Integer>>>();
        for (String line : lines) {
            results.add(pool.submit(new Count(line)));
        }
        Map<String, Integer> all = new TreeMap<String, Integer>();
        for (Future<Map<String, Integer>> result : results) {
            try {
                for (Map.Entry<String, Integer> entry : result.get().entrySet()) {
                    all.put(entry.getKey(), all.getOrDefault(entry.getKey(), 0) + entry.getValue());
                }
            } catch (ExecutionException failed) {
                System.out.println(failed + ", for " + failed.getCause().getMessage());
            }
        }
        pool.shutdown();
        System.out.println(all);
    }
}
