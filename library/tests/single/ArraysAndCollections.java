import java.util.Arrays;
import java.util.Collections;
import java.util.List;
import java.util.ArrayList;
import java.util.Comparator;
import java.util.Random;
import java.util.Map;
import java.util.HashMap;
import java.util.Set;
import java.util.HashSet;

/** Arrays and Collections. */
class ArraysAndCollections {
    static void print(int number) {
        System.out.println(number);
    }

    static void print(boolean is) {
        System.out.println(is ? 1 : 0);
    }

    public static void main(String[] args) throws Exception {
        int[] numbers = {5, -3, 9, 0, 7, 3};
        int[] copy = Arrays.copyOf(numbers, 8);
        Arrays.sort(numbers);
        for (int number : numbers) {
            print(number);
        }
        print(Arrays.binarySearch(numbers, 7));
        print(Arrays.binarySearch(numbers, 4));
        print(copy[6]);
        print(Arrays.equals(numbers, copy));
        print(Arrays.equals(Arrays.copyOfRange(copy, 1, 3), new int[] {-3, 9}));
        print(Arrays.hashCode(numbers));
        Arrays.fill(copy, 4);
        print(copy[7]);
        char[] letters = {'c', 'a', 'b'};
        Arrays.sort(letters);
        print(letters[0]);
        boolean[] flags = new boolean[2];
        Arrays.fill(flags, true);
        print(flags[1]);
        Integer[] boxed = {4, 2, 8};
        Arrays.sort(boxed);
        print(boxed[2]);
        Arrays.sort(boxed, Collections.<Integer>reverseOrder());
        print(boxed[2]);
        List<Integer> list = Arrays.asList(4, 8, 6, 4);
        print(Collections.max(list));
        print(Collections.min(list));
        print(Collections.frequency(list, 4));
        Collections.sort(list);
        print(list.get(3));
        Collections.reverse(list);
        print(list.get(3));
        Collections.swap(list, 0, 3);
        print(list.get(0));
        Collections.sort(list, new Comparator<Integer>() {
            public int compare(Integer a, Integer b) {
                return a % 4 - b % 4;
            }
        });
        for (int each : list) {
            print(each);
        }
        try {
            list.add(1);
        } catch (UnsupportedOperationException fixed) {
            print(-1);
        }
        print(Collections.emptyList().size());
        print(Collections.nCopies(3, 5).get(2));
        print(Collections.singletonList(6).get(0));
        List<Integer> more = Collections.synchronizedList(new ArrayList<Integer>());
        print(Collections.addAll(more, 1, 2, 3));
        print(more.get(2));
        print(more.remove(0));
        print(more.size());
        Map<Integer, Integer> map = Collections.synchronizedMap(new HashMap<Integer, Integer>());
        map.put(1, 2);
        print(map.get(1));
        Set<Integer> set = Collections.synchronizedSet(new HashSet<Integer>());
        print(set.add(1));
        print(set.add(1));
    }
}
