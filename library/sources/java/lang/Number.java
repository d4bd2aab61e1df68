package java.lang;

/** What can be told as an int. Left out: `longValue`, `floatValue`, `doubleValue`. */
public abstract class Number implements java.io.Serializable {
    public Number() {
    }

    public abstract int intValue();

    public byte byteValue() {
        return (byte) intValue();
    }

    public short shortValue() {
        return (short) intValue();
    }
}
