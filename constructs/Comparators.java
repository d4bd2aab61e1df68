/*
 * The library: `Comparator`
 *
 * Comparators.java: the class java.util.Comparator: write an interface of your own
 */
class Comparators implements java.util.Comparator<String> {
    public int compare(String one, String other) {
        return one.length() - other.length();
    }

    public static void main(String[] words) {
        System.out.println(new Comparators().compare("six", "seven"));
    }
}
