package java.lang;

/**
 * A short as an object.
 *
 * Boxing gives one object for each of -128 to 127 (JLS 5.1.7), which is made where it is first asked for, under
 * the lock of the class; and a new one for each other short. Left out: TYPE.
 */
public final class Short extends Number implements Comparable<Short> {
    public static final short MIN_VALUE = -32768;
    public static final short MAX_VALUE = 32767;
    public static final int SIZE = 16;
    public static final int BYTES = 2;

    private static Short[] kept;

    private final short value;

    public Short(short value) {
        this.value = value;
    }

    public Short(String text) {
        this(parseShort(text));
    }

    public static Short valueOf(short value) {
        return value < -128 || value > 127 ? new Short(value) : kept(value + 128);
    }

    private static synchronized Short kept(int at) {
        if (kept == null) {
            kept = new Short[256];
        }
        Short one = kept[at];
        if (one == null) {
            one = new Short((short) (at - 128));
            kept[at] = one;
        }
        return one;
    }

    public static Short valueOf(String text) {
        return valueOf(parseShort(text));
    }

    public static Short valueOf(String text, int radix) {
        return valueOf(parseShort(text, radix));
    }

    public static short parseShort(String text) {
        return parseShort(text, 10);
    }

    public static short parseShort(String text, int radix) {
        int value = Integer.parseInt(text, radix);
        if (value < MIN_VALUE || value > MAX_VALUE) {
            throw new NumberFormatException("Value out of range. Value:\"" + text + "\" Radix:" + radix);
        }
        return (short) value;
    }

    public static Short decode(String text) {
        int value = Integer.decode(text).intValue();
        if (value < MIN_VALUE || value > MAX_VALUE) {
            throw new NumberFormatException("Value " + value + " out of range from input " + text);
        }
        return valueOf((short) value);
    }

    public byte byteValue() {
        return (byte) value;
    }

    public short shortValue() {
        return value;
    }

    public int intValue() {
        return value;
    }

    public String toString() {
        return String.valueOf((int) value);
    }

    public static String toString(short value) {
        return String.valueOf((int) value);
    }

    public boolean equals(Object other) {
        return other instanceof Short && ((Short) other).value == value;
    }

    public int hashCode() {
        return value;
    }

    public static int hashCode(short value) {
        return value;
    }

    public int compareTo(Short other) {
        return value - other.value;
    }

    public static int compare(short a, short b) {
        return a - b;
    }

    public static int toUnsignedInt(short value) {
        return value & 0xffff;
    }

    public static short reverseBytes(short value) {
        return (short) (value << 8 | (value & 0xff00) >> 8);
    }
}
