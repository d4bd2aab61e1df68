package java.util;

/** Equality, hash codes and texts of arrays within arrays, of this library's own, for Arrays. */
final class DeepArrays {
    private DeepArrays() {
    }

    static boolean areEqual(Object[] a, Object[] b) {
        if (a == b) {
            return true;
        }
        if (a == null || b == null || a.length != b.length) {
            return false;
        }
        for (int at = 0; at < a.length; at++) {
            if (!elementsAreEqual(a[at], b[at])) {
                return false;
            }
        }
        return true;
    }

    private static boolean elementsAreEqual(Object a, Object b) {
        if (a instanceof Object[] && b instanceof Object[]) {
            return areEqual((Object[]) a, (Object[]) b);
        }
        if (a instanceof int[] && b instanceof int[]) {
            return Arrays.equals((int[]) a, (int[]) b);
        }
        if (a instanceof char[] && b instanceof char[]) {
            return Arrays.equals((char[]) a, (char[]) b);
        }
        if (a instanceof boolean[] && b instanceof boolean[]) {
            return Arrays.equals((boolean[]) a, (boolean[]) b);
        }
        if (a instanceof byte[] && b instanceof byte[]) {
            return Arrays.equals((byte[]) a, (byte[]) b);
        }
        if (a instanceof short[] && b instanceof short[]) {
            return Arrays.equals((short[]) a, (short[]) b);
        }
        return Objects.equals(a, b);
    }

    static int hash(Object[] array) {
        if (array == null) {
            return 0;
        }
        int made = 1;
        for (int at = 0; at < array.length; at++) {
            made = 31 * made + elementHash(array[at]);
        }
        return made;
    }

    private static int elementHash(Object object) {
        if (object instanceof Object[]) {
            return hash((Object[]) object);
        }
        if (object instanceof int[]) {
            return Arrays.hashCode((int[]) object);
        }
        if (object instanceof char[]) {
            return Arrays.hashCode((char[]) object);
        }
        if (object instanceof boolean[]) {
            return Arrays.hashCode((boolean[]) object);
        }
        if (object instanceof byte[]) {
            return Arrays.hashCode((byte[]) object);
        }
        return object instanceof short[] ? Arrays.hashCode((short[]) object) : Objects.hashCode(object);
    }

    /** The text of an array within others, whose own text would have no end. */
    static String text(Object[] array, ArrayList<Object> around) {
        for (int at = 0; at < around.size(); at++) {
            if (around.get(at) == array) {
                return "[...]";
            }
        }
        around.add(array);
        StringBuilder made = new StringBuilder("[");
        for (int at = 0; at < array.length; at++) {
            made.append(at == 0 ? "" : ", ").append(elementText(array[at], around));
        }
        around.remove(around.size() - 1);
        return made.append(']').toString();
    }

    private static String elementText(Object object, ArrayList<Object> around) {
        if (object instanceof Object[]) {
            return text((Object[]) object, around);
        }
        if (object instanceof int[]) {
            return Arrays.toString((int[]) object);
        }
        if (object instanceof char[]) {
            return Arrays.toString((char[]) object);
        }
        if (object instanceof boolean[]) {
            return Arrays.toString((boolean[]) object);
        }
        if (object instanceof byte[]) {
            return Arrays.toString((byte[]) object);
        }
        return object instanceof short[] ? Arrays.toString((short[]) object) : String.valueOf(object);
    }
}
