package java.lang;

import java.io.PrintStream;

/** Where the streams stand that print. */
public final class System {
    public static final PrintStream out = null;

    public static final PrintStream err = null;

    private System() {}

    public static native int identityHashCode(Object object);

    public static String lineSeparator() {
        return "\n";
    }

    /** Copies one element after another, the last one first where they would be copied over each other else. */
    public static void arraycopy(Object source, int from, Object target, int to, int count) {
        if (source == null || target == null) {
            throw new NullPointerException();
        }
        int at = 0;
        int end = count;
        int step = 1;
        if (source == target && from < to) {
            at = count - 1;
            end = -1;
            step = -1;
        }
        if (source instanceof int[] && target instanceof int[]) {
            int[] read = (int[]) source;
            int[] written = (int[]) target;
            check(read.length, from, written.length, to, count);
            for (; at != end; at += step) {
                written[to + at] = read[from + at];
            }
        } else if (source instanceof char[] && target instanceof char[]) {
            char[] read = (char[]) source;
            char[] written = (char[]) target;
            check(read.length, from, written.length, to, count);
            for (; at != end; at += step) {
                written[to + at] = read[from + at];
            }
        } else if (source instanceof byte[] && target instanceof byte[]) {
            byte[] read = (byte[]) source;
            byte[] written = (byte[]) target;
            check(read.length, from, written.length, to, count);
            for (; at != end; at += step) {
                written[to + at] = read[from + at];
            }
        } else if (source instanceof boolean[] && target instanceof boolean[]) {
            boolean[] read = (boolean[]) source;
            boolean[] written = (boolean[]) target;
            check(read.length, from, written.length, to, count);
            for (; at != end; at += step) {
                written[to + at] = read[from + at];
            }
        } else if (source instanceof short[] && target instanceof short[]) {
            short[] read = (short[]) source;
            short[] written = (short[]) target;
            check(read.length, from, written.length, to, count);
            for (; at != end; at += step) {
                written[to + at] = read[from + at];
            }
        } else if (source instanceof Object[] && target instanceof Object[]) {
            Object[] read = (Object[]) source;
            Object[] written = (Object[]) target;
            check(read.length, from, written.length, to, count);
            for (; at != end; at += step) {
                written[to + at] = read[from + at];
            }
        } else {
            throw new ArrayStoreException();
        }
    }

    /** Throws where arrays of these lengths don't have the elements that are copied. */
    private static void check(int length, int from, int room, int to, int count) {
        if (from < 0 || to < 0 || count < 0 || from > length - count || to > room - count) {
            throw new ArrayIndexOutOfBoundsException();
        }
    }
}
