/*
 * The library: `Comparable`
 *
 * It works.
 */
class CompareObjects implements Comparable<CompareObjects> {
    int size;

    public int compareTo(CompareObjects other) {
        return size - other.size;
    }

    static <T extends Comparable<T>> T larger(T one, T other) {
        return one.compareTo(other) < 0 ? other : one;
    }

    public static void main(String[] words) {
        System.out.println(new CompareObjects().compareTo(new CompareObjects()));
        System.out.println(larger("six", "seven"));
    }
}
