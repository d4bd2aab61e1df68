package java.lang;

/**
 * A byte as an object.
 *
 * Boxing gives one object for each of -128 to 127 (JLS 5.1.7), which is made where it is first asked for, under
 * the lock of the class. Left out: TYPE.
 */
public final class Byte extends Number implements Comparable<Byte> {
    public static final byte MIN_VALUE = -128;
    public static final byte MAX_VALUE = 127;
    public static final int SIZE = 8;
    public static final int BYTES = 1;

    private static Byte[] kept;

    private final byte value;

    public Byte(byte value) {
        this.value = value;
    }

    public Byte(String text) {
        this(parseByte(text));
    }

    public static Byte valueOf(byte value) {
        return kept(value + 128);
    }

    private static synchronized Byte kept(int at) {
        if (kept == null) {
            kept = new Byte[256];
        }
        Byte one = kept[at];
        if (one == null) {
            one = new Byte((byte) (at - 128));
            kept[at] = one;
        }
        return one;
    }

    public static Byte valueOf(String text) {
        return valueOf(parseByte(text));
    }

    public static Byte valueOf(String text, int radix) {
        return valueOf(parseByte(text, radix));
    }

    public static byte parseByte(String text) {
        return parseByte(text, 10);
    }

    public static byte parseByte(String text, int radix) {
        int value = Integer.parseInt(text, radix);
        if (value < MIN_VALUE || value > MAX_VALUE) {
            throw new NumberFormatException("Value out of range. Value:\"" + text + "\" Radix:" + radix);
        }
        return (byte) value;
    }

    public static Byte decode(String text) {
        int value = Integer.decode(text).intValue();
        if (value < MIN_VALUE || value > MAX_VALUE) {
            throw new NumberFormatException("Value " + value + " out of range from input " + text);
        }
        return valueOf((byte) value);
    }

    public byte byteValue() {
        return value;
    }

    public short shortValue() {
        return value;
    }

    public int intValue() {
        return value;
    }

    public String toString() {
        return String.valueOf((int) value);
    }

    public static String toString(byte value) {
        return String.valueOf((int) value);
    }

    public boolean equals(Object other) {
        return other instanceof Byte && ((Byte) other).value == value;
    }

    public int hashCode() {
        return value;
    }

    public static int hashCode(byte value) {
        return value;
    }

    public int compareTo(Byte other) {
        return value - other.value;
    }

    public static int compare(byte a, byte b) {
        return a - b;
    }

    public static int toUnsignedInt(byte value) {
        return value & 0xff;
    }
}
