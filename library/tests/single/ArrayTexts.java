import java.util.Arrays;

/** Arrays: texts, equality and hash codes, copies and searches of each kind. */
class ArrayTexts {
    static void numbers() {
        int[] ints = {3, 1, 2};
        char[] chars = {'c', 'a', 'b'};
        byte[] bytes = {3, -1, 2};
        short[] shorts = {300, -1, 2};
        boolean[] flags = {true, false};
        System.out.println(Arrays.toString(ints) + Arrays.toString(chars) + Arrays.toString(bytes)
                + Arrays.toString(shorts) + Arrays.toString(flags) + Arrays.toString(new int[0])
                + Arrays.toString((int[]) null));
        System.out.println(Arrays.hashCode(ints) + " " + Arrays.hashCode(chars) + " " + Arrays.hashCode(bytes) + " "
                + Arrays.hashCode(shorts) + " " + Arrays.hashCode(flags) + " " + Arrays.hashCode((int[]) null));
        Arrays.sort(ints);
        Arrays.sort(chars);
        Arrays.sort(bytes, 0, 2);
        Arrays.sort(shorts);
        System.out.println(Arrays.toString(ints) + Arrays.toString(chars) + Arrays.toString(bytes)
                + Arrays.toString(shorts));
        System.out.println(Arrays.binarySearch(chars, 'b') + " " + Arrays.binarySearch(shorts, (short) 5));
        System.out.println(Arrays.toString(Arrays.copyOf(bytes, 5)) + Arrays.toString(Arrays.copyOf(flags, 1))
                + Arrays.toString(Arrays.copyOfRange(shorts, 1, 5)) + Arrays.toString(Arrays.copyOf(ints, 2)));
        System.out.println(Arrays.equals(bytes, Arrays.copyOf(bytes, 3)) + " " + Arrays.equals(flags, new boolean[2])
                + " " + Arrays.equals(shorts, null) + " " + Arrays.equals(chars, new char[] {'a', 'b', 'c'}));
        Arrays.fill(shorts, 1, 3, (short) 9);
        Arrays.fill(bytes, (byte) 4);
        System.out.println(Arrays.toString(shorts) + Arrays.toString(bytes));
    }

    public static void main(String[] args) {
        numbers();
        String[] words = {"pear", "fig", null, "kiwi"};
        System.out.println(Arrays.toString(words) + Arrays.hashCode(words) + Arrays.asList(words));
        String[] copy = Arrays.copyOf(words, 2);
        Arrays.sort(copy);
        System.out.println(Arrays.toString(copy) + Arrays.binarySearch(copy, "pear") + Arrays.binarySearch(copy, "zoo"));
        System.out.println(Arrays.equals(new String[] {"a" + args.length}, new String[] {"a0"}));
        System.out.println(Arrays.toString(Arrays.copyOfRange(words, 1, 6)));
        Object[] objects = Arrays.copyOf(new Object[] {1, "b", 'c', true}, 6);
        System.out.println(Arrays.toString(objects) + Arrays.deepToString(objects));
        Integer[] boxed = Arrays.copyOf(new Integer[] {4, 5}, 3);
        System.out.println(Arrays.toString(boxed));
        Object[] deep = {new int[] {1, 2}, new String[] {"x"}, new Object[] {new boolean[] {true}, null}, 'y'};
        Object[] like = {new int[] {1, 2}, new String[] {"x"}, new Object[] {new boolean[] {true}, null}, 'y'};
        System.out.println(Arrays.deepToString(deep) + Arrays.deepHashCode(deep) + Arrays.deepEquals(deep, like)
                + Arrays.equals(deep, like) + Arrays.deepHashCode(null));
        deep[3] = deep;
        System.out.println(Arrays.deepToString(deep));
        int[][] rows = {{1, 2}, {3}, {}};
        System.out.println(Arrays.deepToString(rows));
    }
}
