package java.util;

/** Functions of objects that may be null. Left out: `deepEquals`, what takes a function. */
public final class Objects {
    private Objects() {
    }

    public static boolean equals(Object a, Object b) {
        return a == b || a != null && a.equals(b);
    }

    public static int hashCode(Object object) {
        return object == null ? 0 : object.hashCode();
    }

    public static int hash(Object... values) {
        if (values == null) {
            return 0;
        }
        int made = 1;
        for (int at = 0; at < values.length; at++) {
            made = 31 * made + hashCode(values[at]);
        }
        return made;
    }

    public static String toString(Object object) {
        return String.valueOf(object);
    }

    public static String toString(Object object, String other) {
        return object == null ? other : object.toString();
    }

    public static <T> int compare(T a, T b, Comparator<? super T> order) {
        return a == b ? 0 : order.compare(a, b);
    }

    public static <T> T requireNonNull(T object) {
        if (object == null) {
            throw new NullPointerException();
        }
        return object;
    }

    public static <T> T requireNonNull(T object, String message) {
        if (object == null) {
            throw new NullPointerException(message);
        }
        return object;
    }

    public static boolean isNull(Object object) {
        return object == null;
    }

    public static boolean nonNull(Object object) {
        return object != null;
    }

    /**
     * An array of the class of another one, of this library's own; null where that isn't String[], Integer[],
     * Character[] or Boolean[].
     */
    @SuppressWarnings("unchecked")
    static <T> T[] arrayLike(T[] array, int length) {
        Object[] made = null;
        if (array instanceof String[]) {
            made = new String[length];
        } else if (array instanceof Integer[]) {
            made = new Integer[length];
        } else if (array instanceof Character[]) {
            made = new Character[length];
        } else if (array instanceof Boolean[]) {
            made = new Boolean[length];
        }
        return (T[]) made;
    }
}
