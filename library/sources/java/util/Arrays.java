package java.util;

/**
 * Functions of arrays of ints, chars, booleans, bytes, shorts and references. Sorting is stable insertion.
 *
 * `asList` is a list over the array itself. A copy of an array of references is one of Strings, Integers, Characters or
 * Booleans where that is one, and an Object[] else. Left out: what takes a function, streams; long, float and double.
 */
public final class Arrays {
    private Arrays() {
    }

    private static void check(int from, int to, int length) {
        if (from > to) {
            throw new IllegalArgumentException("fromIndex(" + from + ") > toIndex(" + to + ")");
        }
        if (from < 0 || to > length) {
            throw new ArrayIndexOutOfBoundsException(from < 0 ? from : to);
        }
    }

    private static void checkCopy(int from, int to, int length) {
        if (from > to) {
            throw new IllegalArgumentException(from + " > " + to);
        }
        if (from < 0 || from > length) {
            throw new ArrayIndexOutOfBoundsException();
        }
    }

    public static void fill(int[] array, int value) {
        fill(array, 0, array.length, value);
    }

    public static void fill(int[] array, int from, int to, int value) {
        check(from, to, array.length);
        for (int at = from; at < to; at++) {
            array[at] = value;
        }
    }

    public static void fill(char[] array, char value) {
        fill(array, 0, array.length, value);
    }

    public static void fill(char[] array, int from, int to, char value) {
        check(from, to, array.length);
        for (int at = from; at < to; at++) {
            array[at] = value;
        }
    }

    public static void fill(boolean[] array, boolean value) {
        fill(array, 0, array.length, value);
    }

    public static void fill(boolean[] array, int from, int to, boolean value) {
        check(from, to, array.length);
        for (int at = from; at < to; at++) {
            array[at] = value;
        }
    }

    public static void fill(byte[] array, byte value) {
        fill(array, 0, array.length, value);
    }

    public static void fill(byte[] array, int from, int to, byte value) {
        check(from, to, array.length);
        for (int at = from; at < to; at++) {
            array[at] = value;
        }
    }

    public static void fill(short[] array, short value) {
        fill(array, 0, array.length, value);
    }

    public static void fill(short[] array, int from, int to, short value) {
        check(from, to, array.length);
        for (int at = from; at < to; at++) {
            array[at] = value;
        }
    }

    public static void fill(Object[] array, Object value) {
        fill(array, 0, array.length, value);
    }

    public static void fill(Object[] array, int from, int to, Object value) {
        check(from, to, array.length);
        for (int at = from; at < to; at++) {
            array[at] = value;
        }
    }

    public static int[] copyOf(int[] array, int length) {
        int[] made = new int[length];
        System.arraycopy(array, 0, made, 0, length < array.length ? length : array.length);
        return made;
    }

    public static int[] copyOfRange(int[] array, int from, int to) {
        checkCopy(from, to, array.length);
        int[] made = new int[to - from];
        System.arraycopy(array, from, made, 0, (to < array.length ? to : array.length) - from);
        return made;
    }

    public static char[] copyOf(char[] array, int length) {
        char[] made = new char[length];
        System.arraycopy(array, 0, made, 0, length < array.length ? length : array.length);
        return made;
    }

    public static char[] copyOfRange(char[] array, int from, int to) {
        checkCopy(from, to, array.length);
        char[] made = new char[to - from];
        System.arraycopy(array, from, made, 0, (to < array.length ? to : array.length) - from);
        return made;
    }

    public static boolean[] copyOf(boolean[] array, int length) {
        boolean[] made = new boolean[length];
        System.arraycopy(array, 0, made, 0, length < array.length ? length : array.length);
        return made;
    }

    public static boolean[] copyOfRange(boolean[] array, int from, int to) {
        checkCopy(from, to, array.length);
        boolean[] made = new boolean[to - from];
        System.arraycopy(array, from, made, 0, (to < array.length ? to : array.length) - from);
        return made;
    }

    public static byte[] copyOf(byte[] array, int length) {
        byte[] made = new byte[length];
        System.arraycopy(array, 0, made, 0, length < array.length ? length : array.length);
        return made;
    }

    public static byte[] copyOfRange(byte[] array, int from, int to) {
        checkCopy(from, to, array.length);
        byte[] made = new byte[to - from];
        System.arraycopy(array, from, made, 0, (to < array.length ? to : array.length) - from);
        return made;
    }

    public static short[] copyOf(short[] array, int length) {
        short[] made = new short[length];
        System.arraycopy(array, 0, made, 0, length < array.length ? length : array.length);
        return made;
    }

    public static short[] copyOfRange(short[] array, int from, int to) {
        checkCopy(from, to, array.length);
        short[] made = new short[to - from];
        System.arraycopy(array, from, made, 0, (to < array.length ? to : array.length) - from);
        return made;
    }

    public static <T> T[] copyOf(T[] array, int length) {
        T[] made = likeOf(array, length);
        System.arraycopy(array, 0, made, 0, length < array.length ? length : array.length);
        return made;
    }

    public static <T> T[] copyOfRange(T[] array, int from, int to) {
        checkCopy(from, to, array.length);
        T[] made = likeOf(array, to - from);
        System.arraycopy(array, from, made, 0, (to < array.length ? to : array.length) - from);
        return made;
    }

    @SuppressWarnings("unchecked")
    private static <T> T[] likeOf(T[] array, int length) {
        T[] made = Objects.arrayLike(array, length);
        return made == null ? (T[]) new Object[length] : made;
    }

    public static boolean equals(int[] a, int[] b) {
        if (a == b) {
            return true;
        }
        if (a == null || b == null || a.length != b.length) {
            return false;
        }
        for (int at = 0; at < a.length; at++) {
            if (a[at] != b[at]) {
                return false;
            }
        }
        return true;
    }

    public static boolean equals(char[] a, char[] b) {
        if (a == b) {
            return true;
        }
        if (a == null || b == null || a.length != b.length) {
            return false;
        }
        for (int at = 0; at < a.length; at++) {
            if (a[at] != b[at]) {
                return false;
            }
        }
        return true;
    }

    public static boolean equals(boolean[] a, boolean[] b) {
        if (a == b) {
            return true;
        }
        if (a == null || b == null || a.length != b.length) {
            return false;
        }
        for (int at = 0; at < a.length; at++) {
            if (a[at] != b[at]) {
                return false;
            }
        }
        return true;
    }

    public static boolean equals(byte[] a, byte[] b) {
        if (a == b) {
            return true;
        }
        if (a == null || b == null || a.length != b.length) {
            return false;
        }
        for (int at = 0; at < a.length; at++) {
            if (a[at] != b[at]) {
                return false;
            }
        }
        return true;
    }

    public static boolean equals(short[] a, short[] b) {
        if (a == b) {
            return true;
        }
        if (a == null || b == null || a.length != b.length) {
            return false;
        }
        for (int at = 0; at < a.length; at++) {
            if (a[at] != b[at]) {
                return false;
            }
        }
        return true;
    }

    public static boolean equals(Object[] a, Object[] b) {
        if (a == b) {
            return true;
        }
        if (a == null || b == null || a.length != b.length) {
            return false;
        }
        for (int at = 0; at < a.length; at++) {
            if (!Objects.equals(a[at], b[at])) {
                return false;
            }
        }
        return true;
    }

    public static int hashCode(int[] array) {
        if (array == null) {
            return 0;
        }
        int made = 1;
        for (int at = 0; at < array.length; at++) {
            made = 31 * made + array[at];
        }
        return made;
    }

    public static int hashCode(char[] array) {
        if (array == null) {
            return 0;
        }
        int made = 1;
        for (int at = 0; at < array.length; at++) {
            made = 31 * made + array[at];
        }
        return made;
    }

    public static int hashCode(boolean[] array) {
        if (array == null) {
            return 0;
        }
        int made = 1;
        for (int at = 0; at < array.length; at++) {
            made = 31 * made + Boolean.hashCode(array[at]);
        }
        return made;
    }

    public static int hashCode(byte[] array) {
        if (array == null) {
            return 0;
        }
        int made = 1;
        for (int at = 0; at < array.length; at++) {
            made = 31 * made + array[at];
        }
        return made;
    }

    public static int hashCode(short[] array) {
        if (array == null) {
            return 0;
        }
        int made = 1;
        for (int at = 0; at < array.length; at++) {
            made = 31 * made + array[at];
        }
        return made;
    }

    public static int hashCode(Object[] array) {
        if (array == null) {
            return 0;
        }
        int made = 1;
        for (int at = 0; at < array.length; at++) {
            made = 31 * made + Objects.hashCode(array[at]);
        }
        return made;
    }

    public static String toString(int[] array) {
        if (array == null) {
            return "null";
        }
        StringBuilder made = new StringBuilder("[");
        for (int at = 0; at < array.length; at++) {
            made.append(at == 0 ? "" : ", ").append(array[at]);
        }
        return made.append(']').toString();
    }

    public static String toString(char[] array) {
        if (array == null) {
            return "null";
        }
        StringBuilder made = new StringBuilder("[");
        for (int at = 0; at < array.length; at++) {
            made.append(at == 0 ? "" : ", ").append(array[at]);
        }
        return made.append(']').toString();
    }

    public static String toString(boolean[] array) {
        if (array == null) {
            return "null";
        }
        StringBuilder made = new StringBuilder("[");
        for (int at = 0; at < array.length; at++) {
            made.append(at == 0 ? "" : ", ").append(array[at]);
        }
        return made.append(']').toString();
    }

    public static String toString(byte[] array) {
        if (array == null) {
            return "null";
        }
        StringBuilder made = new StringBuilder("[");
        for (int at = 0; at < array.length; at++) {
            made.append(at == 0 ? "" : ", ").append(array[at]);
        }
        return made.append(']').toString();
    }

    public static String toString(short[] array) {
        if (array == null) {
            return "null";
        }
        StringBuilder made = new StringBuilder("[");
        for (int at = 0; at < array.length; at++) {
            made.append(at == 0 ? "" : ", ").append(array[at]);
        }
        return made.append(']').toString();
    }

    public static String toString(Object[] array) {
        if (array == null) {
            return "null";
        }
        StringBuilder made = new StringBuilder("[");
        for (int at = 0; at < array.length; at++) {
            made.append(at == 0 ? "" : ", ").append(array[at]);
        }
        return made.append(']').toString();
    }

    public static boolean deepEquals(Object[] a, Object[] b) {
        return DeepArrays.areEqual(a, b);
    }

    public static int deepHashCode(Object[] array) {
        return DeepArrays.hash(array);
    }

    public static String deepToString(Object[] array) {
        return array == null ? "null" : DeepArrays.text(array, new ArrayList<Object>());
    }

    public static void sort(int[] array) {
        sort(array, 0, array.length);
    }

    public static void sort(int[] array, int from, int to) {
        check(from, to, array.length);
        for (int end = from + 1; end < to; end++) {
            int value = array[end];
            int at = end;
            for (; at > from && array[at - 1] > value; at--) {
                array[at] = array[at - 1];
            }
            array[at] = value;
        }
    }

    public static void sort(char[] array) {
        sort(array, 0, array.length);
    }

    public static void sort(char[] array, int from, int to) {
        check(from, to, array.length);
        for (int end = from + 1; end < to; end++) {
            char value = array[end];
            int at = end;
            for (; at > from && array[at - 1] > value; at--) {
                array[at] = array[at - 1];
            }
            array[at] = value;
        }
    }

    public static void sort(byte[] array) {
        sort(array, 0, array.length);
    }

    public static void sort(byte[] array, int from, int to) {
        check(from, to, array.length);
        for (int end = from + 1; end < to; end++) {
            byte value = array[end];
            int at = end;
            for (; at > from && array[at - 1] > value; at--) {
                array[at] = array[at - 1];
            }
            array[at] = value;
        }
    }

    public static void sort(short[] array) {
        sort(array, 0, array.length);
    }

    public static void sort(short[] array, int from, int to) {
        check(from, to, array.length);
        for (int end = from + 1; end < to; end++) {
            short value = array[end];
            int at = end;
            for (; at > from && array[at - 1] > value; at--) {
                array[at] = array[at - 1];
            }
            array[at] = value;
        }
    }

    public static void sort(Object[] array) {
        sort(array, 0, array.length, null);
    }

    public static void sort(Object[] array, int from, int to) {
        sort(array, from, to, null);
    }

    public static <T> void sort(T[] array, Comparator<? super T> order) {
        sort(array, 0, array.length, order);
    }

    @SuppressWarnings("unchecked")
    public static <T> void sort(T[] array, int from, int to, Comparator<? super T> order) {
        check(from, to, array.length);
        for (int end = from + 1; end < to; end++) {
            T value = array[end];
            int at = end;
            for (; at > from && compare((Comparator<T>) order, array[at - 1], value) > 0; at--) {
                array[at] = array[at - 1];
            }
            array[at] = value;
        }
    }

    @SuppressWarnings("unchecked")
    static <T> int compare(Comparator<T> order, T a, T b) {
        return order != null ? order.compare(a, b) : ((Comparable<Object>) a).compareTo(b);
    }

    public static int binarySearch(int[] array, int key) {
        int from = 0;
        int to = array.length - 1;
        while (from <= to) {
            int middle = from + to >>> 1;
            if (array[middle] == key) {
                return middle;
            }
            if (array[middle] < key) {
                from = middle + 1;
            } else {
                to = middle - 1;
            }
        }
        return -from - 1;
    }

    public static int binarySearch(char[] array, char key) {
        int from = 0;
        int to = array.length - 1;
        while (from <= to) {
            int middle = from + to >>> 1;
            if (array[middle] == key) {
                return middle;
            }
            if (array[middle] < key) {
                from = middle + 1;
            } else {
                to = middle - 1;
            }
        }
        return -from - 1;
    }

    public static int binarySearch(byte[] array, byte key) {
        int from = 0;
        int to = array.length - 1;
        while (from <= to) {
            int middle = from + to >>> 1;
            if (array[middle] == key) {
                return middle;
            }
            if (array[middle] < key) {
                from = middle + 1;
            } else {
                to = middle - 1;
            }
        }
        return -from - 1;
    }

    public static int binarySearch(short[] array, short key) {
        int from = 0;
        int to = array.length - 1;
        while (from <= to) {
            int middle = from + to >>> 1;
            if (array[middle] == key) {
                return middle;
            }
            if (array[middle] < key) {
                from = middle + 1;
            } else {
                to = middle - 1;
            }
        }
        return -from - 1;
    }

    public static int binarySearch(Object[] array, Object key) {
        return binarySearch(array, key, null);
    }

    @SuppressWarnings("unchecked")
    public static <T> int binarySearch(T[] array, T key, Comparator<? super T> order) {
        int from = 0;
        int to = array.length - 1;
        while (from <= to) {
            int middle = from + to >>> 1;
            int compared = compare((Comparator<T>) order, array[middle], key);
            if (compared == 0) {
                return middle;
            }
            if (compared < 0) {
                from = middle + 1;
            } else {
                to = middle - 1;
            }
        }
        return -from - 1;
    }

    @SafeVarargs
    public static <T> List<T> asList(T... array) {
        return new ListOfArray<T>(array);
    }

    static final class ListOfArray<E> extends AbstractList<E> implements RandomAccess, java.io.Serializable {
        private final E[] array;

        ListOfArray(E[] array) {
            if (array == null) {
                throw new NullPointerException();
            }
            this.array = array;
        }

        public int size() {
            return array.length;
        }

        public E get(int index) {
            return array[index];
        }

        public E set(int index, E element) {
            E old = array[index];
            array[index] = element;
            return old;
        }
    }
}
