package java.lang;

/**
 * A text that grows, each of whose operations is done under its lock, by a StringBuilder. A `toString` that an append
 * or insert calls is called under the lock, too. Left out: code points, `getChars`, `append` and `insert` of long,
 * float and double.
 */
public final class StringBuffer implements CharSequence, java.io.Serializable {
    private final StringBuilder builder;

    public StringBuffer() {
        builder = new StringBuilder();
    }

    public StringBuffer(int capacity) {
        builder = new StringBuilder(capacity);
    }

    public StringBuffer(String text) {
        builder = new StringBuilder(text);
    }

    public StringBuffer(CharSequence other) {
        builder = new StringBuilder(other);
    }

    public synchronized int length() {
        return builder.length();
    }

    public synchronized char charAt(int index) {
        return builder.charAt(index);
    }

    public synchronized int capacity() {
        return builder.capacity();
    }

    public synchronized void ensureCapacity(int capacity) {
        builder.ensureCapacity(capacity);
    }

    public synchronized void trimToSize() {
        builder.trimToSize();
    }

    public synchronized void setLength(int length) {
        builder.setLength(length);
    }

    public synchronized void setCharAt(int index, char unit) {
        builder.setCharAt(index, unit);
    }

    public synchronized StringBuffer append(Object object) {
        builder.append(object);
        return this;
    }

    public synchronized StringBuffer append(String other) {
        builder.append(other);
        return this;
    }

    public synchronized StringBuffer append(StringBuffer other) {
        builder.append(other == null ? "null" : other.toString());
        return this;
    }

    public synchronized StringBuffer append(CharSequence other) {
        builder.append(other);
        return this;
    }

    public synchronized StringBuffer append(CharSequence other, int begin, int end) {
        builder.append(other, begin, end);
        return this;
    }

    public synchronized StringBuffer append(char[] units) {
        return append(units, 0, units.length);
    }

    public synchronized StringBuffer append(char[] units, int from, int count) {
        if (from < 0 || count < 0 || from > units.length - count) {
            throw new IndexOutOfBoundsException();
        }
        for (int at = from; at < from + count; at++) {
            builder.append(units[at]);
        }
        return this;
    }

    public synchronized StringBuffer append(boolean value) {
        builder.append(value);
        return this;
    }

    public synchronized StringBuffer append(char unit) {
        builder.append(unit);
        return this;
    }

    public synchronized StringBuffer append(int number) {
        builder.append(number);
        return this;
    }

    public synchronized StringBuffer deleteCharAt(int index) {
        builder.deleteCharAt(index);
        return this;
    }

    public synchronized StringBuffer delete(int begin, int end) {
        builder.delete(begin, end);
        return this;
    }

    public synchronized StringBuffer replace(int begin, int end, String other) {
        builder.replace(begin, end, other);
        return this;
    }

    public synchronized StringBuffer insert(int at, Object object) {
        builder.insert(at, object);
        return this;
    }

    public synchronized StringBuffer insert(int at, String other) {
        builder.insert(at, other);
        return this;
    }

    public synchronized StringBuffer insert(int at, CharSequence other) {
        builder.insert(at, other);
        return this;
    }

    public synchronized StringBuffer insert(int at, CharSequence other, int begin, int end) {
        builder.insert(at, other, begin, end);
        return this;
    }

    public synchronized StringBuffer insert(int at, boolean value) {
        builder.insert(at, value);
        return this;
    }

    public synchronized StringBuffer insert(int at, char unit) {
        builder.insert(at, unit);
        return this;
    }

    public synchronized StringBuffer insert(int at, int number) {
        builder.insert(at, number);
        return this;
    }

    public synchronized int indexOf(String other) {
        return builder.indexOf(other);
    }

    public synchronized int indexOf(String other, int from) {
        return builder.indexOf(other, from);
    }

    public synchronized int lastIndexOf(String other) {
        return builder.lastIndexOf(other);
    }

    public synchronized int lastIndexOf(String other, int from) {
        return builder.lastIndexOf(other, from);
    }

    public synchronized StringBuffer reverse() {
        builder.reverse();
        return this;
    }

    public synchronized String substring(int begin) {
        return builder.substring(begin);
    }

    public synchronized String substring(int begin, int end) {
        return builder.substring(begin, end);
    }

    public synchronized CharSequence subSequence(int begin, int end) {
        return builder.subSequence(begin, end);
    }

    public synchronized String toString() {
        return builder.toString();
    }
}
