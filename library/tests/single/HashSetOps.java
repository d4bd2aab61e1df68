import java.util.HashSet;
import java.util.Set;
import java.util.Arrays;
import java.util.Iterator;

/** HashSet. */
class HashSetOps {
    static void print(int number) {
        System.out.println(number);
    }

    static void print(boolean is) {
        System.out.println(is ? 1 : 0);
    }

    public static void main(String[] args) throws Exception {
        Set<Integer> set = new HashSet<Integer>();
        for (int at = 0; at < 12; at++) {
            set.add(at * at * 7);
        }
        for (int each : set) {
            print(each);
        }
        print(set.contains(63));
        print(set.add(63));
        print(set.remove(63));
        print(set.remove(63));
        print(set.size());
        print(set.hashCode());
        Set<Integer> other = new HashSet<Integer>(Arrays.asList(7, 28, 1));
        print(set.containsAll(other));
        print(other.removeAll(Arrays.asList(1)));
        print(set.containsAll(other));
        print(other.equals(new HashSet<Integer>(Arrays.asList(28, 7))));
        set.retainAll(other);
        print(set.equals(other));
        Object one = new Object();
        Set<Object> objects = new HashSet<Object>();
        print(objects.add(one));
        print(objects.add(one));
        print(objects.add(new Object()));
        print(objects.contains(one));
        print(objects.size());
        print(objects.add(null));
        print(objects.contains(null));
        Iterator<Integer> each = set.iterator();
        each.next();
        each.remove();
        print(set.size());
    }
}
