package java.lang;

/** A text that never changes (JLS 4.3.3). */
public final class String implements Comparable, CharSequence {
    public String() {}

    public String(String other) {}

    public String(char[] units, int offset, int count) {}

    public String(char[] units) {
        this(units, 0, units.length);
    }

    public native int length();

    public native char charAt(int index);

    public native boolean equals(Object other);

    public native int hashCode();

    public native int compareTo(String other);

    public native String concat(String other);

    public native String substring(int begin, int end);

    public native int indexOf(int unit, int from);

    public native boolean regionMatches(int at, String other, int from, int count);

    public native void getChars(int begin, int end, char[] units, int at);

    public native String intern();

    public static native String valueOf(int number);

    public static native String valueOf(char unit);

    /** The name of an object's class, `@`, and a number in hexadecimal. Not for other classes than the built-in ones. */
    static native String described(Object object, int number);

    public static String valueOf(Object object) {
        return object == null ? "null" : object.toString();
    }

    public static String valueOf(boolean value) {
        return value ? "true" : "false";
    }

    public static String valueOf(char[] units) {
        return new String(units, 0, units.length);
    }

    public static String valueOf(char[] units, int offset, int count) {
        return new String(units, offset, count);
    }

    public static String copyValueOf(char[] units) {
        return new String(units, 0, units.length);
    }

    public static String copyValueOf(char[] units, int offset, int count) {
        return new String(units, offset, count);
    }

    /** The texts of the elements, of a null `null`, with the separator between each two. */
    public static String join(CharSequence separator, CharSequence[] elements) {
        String between = separator.toString();
        StringBuilder joined = new StringBuilder();
        for (int at = 0; at < elements.length; at++) {
            if (at > 0) {
                joined.append(between);
            }
            joined.append(elements[at]);
        }
        return joined.toString();
    }

    public boolean isEmpty() {
        return length() == 0;
    }

    public String toString() {
        return this;
    }

    public String substring(int begin) {
        return substring(begin, length());
    }

    public CharSequence subSequence(int begin, int end) {
        return substring(begin, end);
    }

    public int compareTo(Object other) {
        return compareTo((String) other);
    }

    public int indexOf(int unit) {
        return indexOf(unit, 0);
    }

    public int indexOf(String other) {
        return indexOf(other, 0);
    }

    public int indexOf(String other, int from) {
        int count = other.length();
        int last = length() - count;
        for (int at = from < 0 ? 0 : from; at <= last; at++) {
            if (regionMatches(at, other, 0, count)) {
                return at;
            }
        }
        return count == 0 ? length() : -1;
    }

    public int lastIndexOf(int unit) {
        return lastIndexOf(unit, length() - 1);
    }

    public int lastIndexOf(int unit, int from) {
        int last = length() - 1;
        for (int at = from < last ? from : last; at >= 0; at--) {
            if (charAt(at) == unit) {
                return at;
            }
        }
        return -1;
    }

    public int lastIndexOf(String other) {
        return lastIndexOf(other, length());
    }

    public int lastIndexOf(String other, int from) {
        int count = other.length();
        int last = length() - count;
        for (int at = from < last ? from : last; at >= 0; at--) {
            if (regionMatches(at, other, 0, count)) {
                return at;
            }
        }
        return -1;
    }

    public boolean startsWith(String other) {
        return regionMatches(0, other, 0, other.length());
    }

    public boolean startsWith(String other, int at) {
        return regionMatches(at, other, 0, other.length());
    }

    public boolean endsWith(String other) {
        return regionMatches(length() - other.length(), other, 0, other.length());
    }

    public boolean contains(CharSequence other) {
        return indexOf(other.toString(), 0) >= 0;
    }

    public boolean contentEquals(CharSequence other) {
        return equals(other.toString());
    }

    public String trim() {
        int begin = 0;
        int end = length();
        while (begin < end && charAt(begin) <= ' ') {
            begin++;
        }
        while (begin < end && charAt(end - 1) <= ' ') {
            end--;
        }
        return substring(begin, end);
    }

    public char[] toCharArray() {
        char[] units = new char[length()];
        getChars(0, units.length, units, 0);
        return units;
    }

    public String replace(char old, char unit) {
        if (old == unit || indexOf(old, 0) < 0) {
            return this;
        }
        char[] units = toCharArray();
        for (int at = 0; at < units.length; at++) {
            if (units[at] == old) {
                units[at] = unit;
            }
        }
        return new String(units, 0, units.length);
    }

    /** Where the old text is empty, the other comes before each unit, and last. */
    public String replace(CharSequence old, CharSequence other) {
        String target = old.toString();
        String replacement = other.toString();
        int at = indexOf(target, 0);
        if (at < 0) {
            return this;
        }
        StringBuilder replaced = new StringBuilder();
        int from = 0;
        int step = target.isEmpty() ? 1 : target.length();
        for (; at >= 0; at = at + step > length() ? -1 : indexOf(target, at + step)) {
            replaced.append(substring(from, at)).append(replacement);
            from = at + target.length();
        }
        return replaced.append(substring(from, length())).toString();
    }

    /** The receiver where it has none of the letters A to Z. */
    public String toLowerCase() {
        char[] units = toCharArray();
        for (int at = 0; at < units.length; at++) {
            units[at] = lower(units[at]);
        }
        String changed = new String(units, 0, units.length);
        return equals(changed) ? this : changed;
    }

    /** The receiver where it has none of the letters a to z. */
    public String toUpperCase() {
        char[] units = toCharArray();
        for (int at = 0; at < units.length; at++) {
            char unit = units[at];
            if (unit >= 'a' && unit <= 'z') {
                units[at] = (char) (unit - ('a' - 'A'));
            }
        }
        String changed = new String(units, 0, units.length);
        return equals(changed) ? this : changed;
    }

    public boolean equalsIgnoreCase(String other) {
        return other != null && length() == other.length() && compareToIgnoreCase(other) == 0;
    }

    public int compareToIgnoreCase(String other) {
        int count = length() < other.length() ? length() : other.length();
        for (int at = 0; at < count; at++) {
            int difference = lower(charAt(at)) - lower(other.charAt(at));
            if (difference != 0) {
                return difference;
            }
        }
        return length() - other.length();
    }

    /** A letter of A to Z as one of a to z, any other unit as it is. */
    private static char lower(char unit) {
        return unit >= 'A' && unit <= 'Z' ? (char) (unit + ('a' - 'A')) : unit;
    }
}
