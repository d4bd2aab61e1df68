/*
 * Statements: `for (T each : iterable)`
 *
 * ForEachOfIterable.java:15: the method void print(java.lang.Iterable): the class java.lang.Iterable, of a for over
 *     objects: write a loop over an array, or by methods of your own
 * ForEachOfIterable.java:15: the class java.lang.Iterable, of a for over objects: write a loop over an array, or by
 *     methods of your own
 * ForEachOfIterable.java:15: the class java.util.Iterator, of a for over objects: write a loop over an array, or by
 *     methods of your own
 * ForEachOfIterable.java:21: the class java.lang.Iterable, of a for over objects: write a loop over an array, or by
 *     methods of your own
 */
class ForEachOfIterable {
    static void print(Iterable<Object> objects) {
        for (Object object : objects) {
            System.out.println(object == null ? 0 : 1);
        }
    }

    public static void main(String[] words) {
        print(null);
    }
}
