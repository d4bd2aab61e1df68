package java.lang;

/**
 * An int as an object.
 *
 * Boxing gives one object for each of -128 to 127 (JLS 5.1.7), which is made where it is first asked for, under
 * the lock of the class; and a new one for each other int. Left out: TYPE, `getInteger`, long and what needs it.
 */
public final class Integer extends Number implements Comparable<Integer> {
    public static final int MIN_VALUE = 0x80000000;
    public static final int MAX_VALUE = 0x7fffffff;
    public static final int SIZE = 32;
    public static final int BYTES = 4;

    private static Integer[] kept;

    private final int value;

    public Integer(int value) {
        this.value = value;
    }

    public Integer(String text) {
        this(parseInt(text));
    }

    public static Integer valueOf(int value) {
        return value < -128 || value > 127 ? new Integer(value) : kept(value + 128);
    }

    private static synchronized Integer kept(int at) {
        if (kept == null) {
            kept = new Integer[256];
        }
        Integer one = kept[at];
        if (one == null) {
            one = new Integer(at - 128);
            kept[at] = one;
        }
        return one;
    }

    public static Integer valueOf(String text) {
        return valueOf(parseInt(text));
    }

    public static Integer valueOf(String text, int radix) {
        return valueOf(parseInt(text, radix));
    }

    public static int parseInt(String text) {
        return parseInt(text, 10);
    }

    public static int parseInt(String text, int radix) {
        if (text == null) {
            throw new NumberFormatException("null");
        }
        if (radix < Character.MIN_RADIX) {
            throw new NumberFormatException("radix " + radix + " less than Character.MIN_RADIX");
        }
        if (radix > Character.MAX_RADIX) {
            throw new NumberFormatException("radix " + radix + " greater than Character.MAX_RADIX");
        }
        char first = text.isEmpty() ? '0' : text.charAt(0);
        int begin = first == '-' || first == '+' ? 1 : 0;
        if (begin == text.length()) {
            throw NumberFormatException.of(text);
        }
        return first == '-' ? negative(text, 1, radix, MIN_VALUE) : -negative(text, begin, radix, -MAX_VALUE);
    }

    /** The number of the digits from an index on, negated; it isn't below the limit. */
    private static int negative(String text, int begin, int radix, int limit) {
        int made = 0;
        for (int at = begin; at < text.length(); at++) {
            int digit = Character.digit(text.charAt(at), radix);
            if (digit < 0 || made < limit / radix || made * radix < limit + digit) {
                throw NumberFormatException.of(text);
            }
            made = made * radix - digit;
        }
        return made;
    }

    public static Integer decode(String text) {
        if (text.isEmpty()) {
            throw new NumberFormatException("Zero length string");
        }
        char first = text.charAt(0);
        int sign = first == '-' || first == '+' ? 1 : 0;
        int begin = sign;
        int radix = 10;
        if (text.startsWith("0x", sign) || text.startsWith("0X", sign)) {
            begin += 2;
            radix = 16;
        } else if (text.startsWith("#", sign)) {
            begin++;
            radix = 16;
        } else if (text.startsWith("0", sign) && text.length() > 1 + sign) {
            begin++;
            radix = 8;
        }
        if (text.startsWith("-", begin) || text.startsWith("+", begin)) {
            throw new NumberFormatException("Sign character in wrong position");
        }
        String digits = text.substring(begin);
        return valueOf(first == '-' ? "-".concat(digits) : digits, radix);
    }

    public String toString() {
        return String.valueOf(value);
    }

    public static String toString(int value) {
        return String.valueOf(value);
    }

    public static String toString(int value, int radix) {
        if (radix < Character.MIN_RADIX || radix > Character.MAX_RADIX || radix == 10) {
            return String.valueOf(value);
        }
        String digits = "";
        int left = value;
        do {
            int next = left / radix;
            int digit = left - next * radix;
            digits = String.valueOf(Character.forDigit(digit < 0 ? -digit : digit, radix)).concat(digits);
            left = next;
        } while (left != 0);
        return value < 0 ? "-".concat(digits) : digits;
    }

    public static String toHexString(int value) {
        return unsigned(value, 4);
    }

    public static String toOctalString(int value) {
        return unsigned(value, 3);
    }

    public static String toBinaryString(int value) {
        return unsigned(value, 1);
    }

    /** The digits of an int without a sign, of so many bits each. */
    private static String unsigned(int value, int bits) {
        String digits = "";
        int left = value;
        do {
            int digit = left & (1 << bits) - 1;
            digits = String.valueOf(Character.forDigit(digit, 1 << bits)).concat(digits);
            left >>>= bits;
        } while (left != 0);
        return digits;
    }

    public int intValue() {
        return value;
    }

    public boolean equals(Object other) {
        return other instanceof Integer && ((Integer) other).value == value;
    }

    public int hashCode() {
        return value;
    }

    public static int hashCode(int value) {
        return value;
    }

    public int compareTo(Integer other) {
        return compare(value, other.value);
    }

    public static int compare(int a, int b) {
        return a < b ? -1 : a == b ? 0 : 1;
    }

    public static int compareUnsigned(int a, int b) {
        return compare(a + MIN_VALUE, b + MIN_VALUE);
    }

    public static int signum(int value) {
        return value >> 31 | -value >>> 31;
    }

    public static int max(int a, int b) {
        return a >= b ? a : b;
    }

    public static int min(int a, int b) {
        return a <= b ? a : b;
    }

    public static int sum(int a, int b) {
        return a + b;
    }

    public static int bitCount(int value) {
        int count = 0;
        for (int left = value; left != 0; left &= left - 1) {
            count++;
        }
        return count;
    }

    public static int highestOneBit(int value) {
        int found = value;
        for (int shift = 1; shift < 32; shift <<= 1) {
            found |= found >>> shift;
        }
        return found - (found >>> 1);
    }

    public static int lowestOneBit(int value) {
        return value & -value;
    }

    public static int numberOfLeadingZeros(int value) {
        int count = 32;
        for (int left = value; left != 0; left >>>= 1) {
            count--;
        }
        return count;
    }

    public static int numberOfTrailingZeros(int value) {
        return value == 0 ? 32 : 31 - numberOfLeadingZeros(value & -value);
    }

    public static int reverse(int value) {
        int made = 0;
        for (int at = 0; at < 32; at++) {
            made = made << 1 | value >>> at & 1;
        }
        return made;
    }

    public static int reverseBytes(int value) {
        return value >>> 24 | value >> 8 & 0xff00 | value << 8 & 0xff0000 | value << 24;
    }

    public static int rotateLeft(int value, int by) {
        return value << by | value >>> -by;
    }

    public static int rotateRight(int value, int by) {
        return value >>> by | value << -by;
    }
}
