import java.util.AbstractMap;
import java.util.ArrayDeque;
import java.util.ArrayList;
import java.util.Arrays;
import java.util.Collection;
import java.util.Collections;
import java.util.HashMap;
import java.util.HashSet;
import java.util.Hashtable;
import java.util.LinkedHashMap;
import java.util.LinkedHashSet;
import java.util.LinkedList;
import java.util.List;
import java.util.Map;
import java.util.PriorityQueue;
import java.util.Set;
import java.util.Stack;
import java.util.TreeMap;
import java.util.TreeSet;
import java.util.Vector;
import java.util.concurrent.ArrayBlockingQueue;
import java.util.concurrent.ConcurrentHashMap;
import java.util.concurrent.ConcurrentLinkedQueue;
import java.util.concurrent.CopyOnWriteArrayList;
import java.util.concurrent.LinkedBlockingQueue;
import java.util.concurrent.PriorityBlockingQueue;
import java.util.concurrent.SynchronousQueue;
import java.util.concurrent.atomic.AtomicBoolean;
import java.util.concurrent.atomic.AtomicInteger;
import java.util.concurrent.atomic.AtomicIntegerArray;
import java.util.concurrent.atomic.AtomicReference;
import java.util.concurrent.atomic.AtomicReferenceArray;

/** The texts of collections, maps and atomic variables, and what of them is equal. */
class CollectionTexts {
    static final List<String> WORDS = Arrays.asList("pear", "fig", "kiwi", "fig", null);

    static void collections() {
        List<Collection<String>> all = new ArrayList<Collection<String>>();
        all.add(new ArrayList<String>(WORDS));
        all.add(new LinkedList<String>(WORDS));
        all.add(new Vector<String>(WORDS));
        all.add(new HashSet<String>(WORDS));
        all.add(new LinkedHashSet<String>(WORDS));
        all.add(new CopyOnWriteArrayList<String>(WORDS));
        all.add(Collections.synchronizedList(new ArrayList<String>(WORDS)));
        List<String> some = WORDS.subList(0, 4);
        all.add(new ArrayDeque<String>(some));
        all.add(new TreeSet<String>(some));
        all.add(new PriorityQueue<String>(some));
        all.add(new ArrayBlockingQueue<String>(4, true, some));
        all.add(new LinkedBlockingQueue<String>(some));
        all.add(new PriorityBlockingQueue<String>(some));
        all.add(new ConcurrentLinkedQueue<String>(some));
        for (Collection<String> one : all) {
            System.out.println(one + " " + one.contains("ki" + "wi".toString()) + one.contains("x"));
            System.out.println(one.remove("f".concat("ig")) + " " + one.size() + " " + one);
        }
    }

    static <M extends Map<String, Integer>> M filled(M map) {
        String[] words = {"to", "be", "or", "not", "to", "be", "that", "is", "the", "question"};
        for (int at = 0; at < words.length; at++) {
            Integer before = map.get(words[at]);
            map.put(words[at], before == null ? 1 : before + 1);
        }
        return map;
    }

    static void maps() {
        List<Map<String, Integer>> all = new ArrayList<Map<String, Integer>>();
        all.add(filled(new HashMap<String, Integer>()));
        all.add(filled(new LinkedHashMap<String, Integer>()));
        all.add(filled(new TreeMap<String, Integer>()));
        all.add(filled(new TreeMap<String, Integer>(Collections.<String>reverseOrder())));
        all.add(filled(new Hashtable<String, Integer>()));
        all.add(filled(new ConcurrentHashMap<String, Integer>()));
        all.add(Collections.synchronizedMap(filled(new HashMap<String, Integer>(2))));
        for (Map<String, Integer> one : all) {
            System.out.println(one + " " + one.hashCode() + " " + one.equals(all.get(1)));
            System.out.println(one.keySet() + " " + one.values() + " " + one.entrySet());
            System.out.println(one.remove("be") + " " + one.containsKey("be") + " " + one.get("th" + "at".trim()));
        }
        Map.Entry<String, Integer> entry = new AbstractMap.SimpleEntry<String, Integer>("key", 5);
        System.out.println(entry + " " + entry.equals(Collections.singletonList(entry).get(0)) + entry.hashCode());
    }

    public static void main(String[] args) {
        collections();
        maps();
        System.out.println(Collections.unmodifiableList(WORDS) + " " + Collections.nCopies(2, "n"));
        Stack<Object> stack = new Stack<Object>();
        stack.push('a');
        stack.push(1);
        stack.push(true);
        stack.push(stack);
        System.out.println(stack + " " + stack.search(1));
        Map<Object, Object> self = new HashMap<Object, Object>();
        self.put("self", self);
        System.out.println(self + " " + new ArrayList<String>() + new HashMap<String, String>());
        System.out.println(new SynchronousQueue<String>());
        System.out.println(new AtomicInteger(5) + " " + new AtomicBoolean(true) + " "
                + new AtomicReference<String>("r") + " " + new AtomicReference<String>());
        System.out.println(new AtomicIntegerArray(new int[] {1, 2}) + " "
                + new AtomicReferenceArray<String>(new String[] {"a", null}));
        Set<List<Integer>> lists = new HashSet<List<Integer>>();
        lists.add(Arrays.asList(1, 2));
        System.out.println(lists.contains(new LinkedList<Integer>(Arrays.asList(1, 2))) + " " + lists);
        String[] words = WORDS.subList(0, 3).toArray(new String[0]);
        Integer[] numbers = new ArrayList<Integer>(Arrays.asList(4, 5)).toArray(new Integer[4]);
        System.out.println(Arrays.toString(words) + Arrays.toString(numbers));
    }
}
