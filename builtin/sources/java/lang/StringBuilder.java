package java.lang;

/** A text that grows (JLS 15.18.1). */
public final class StringBuilder implements CharSequence {
    private String text;

    public StringBuilder() {}

    public StringBuilder(String text) {}

    public StringBuilder(int capacity) {
        this();
        if (capacity < 0) {
            throw new NegativeArraySizeException();
        }
    }

    public StringBuilder(CharSequence other) {
        this(other.toString());
    }

    public native StringBuilder append(String other);

    public native StringBuilder append(int number);

    public native StringBuilder append(char unit);

    public native StringBuilder append(StringBuilder other);

    public native String toString();

    public StringBuilder append(Object object) {
        return append(String.valueOf(object));
    }

    public StringBuilder append(boolean value) {
        return append(String.valueOf(value));
    }

    public StringBuilder append(char[] units) {
        return append(String.valueOf(units));
    }

    public StringBuilder append(char[] units, int offset, int count) {
        return append(String.valueOf(units, offset, count));
    }

    public StringBuilder append(CharSequence other) {
        return append(other == null ? "null" : other.toString());
    }

    public StringBuilder append(CharSequence other, int begin, int end) {
        String all = other == null ? "null" : other.toString();
        if (begin < 0 || begin > end || end > all.length()) {
            throw new IndexOutOfBoundsException();
        }
        return append(all.substring(begin, end));
    }

    public int length() {
        return text.length();
    }

    public char charAt(int index) {
        return text.charAt(index);
    }

    public int capacity() {
        return text.length() + 16;
    }

    public void ensureCapacity(int capacity) {}

    public void trimToSize() {}

    public void setLength(int length) {
        if (length < 0) {
            throw new StringIndexOutOfBoundsException();
        }
        if (length < text.length()) {
            text = text.substring(0, length);
        }
        while (text.length() < length) {
            append('\0');
        }
    }

    public void getChars(int begin, int end, char[] units, int at) {
        text.getChars(begin, end, units, at);
    }

    public void setCharAt(int index, char unit) {
        if (index < 0 || index >= text.length()) {
            throw new StringIndexOutOfBoundsException();
        }
        replace(index, index + 1, String.valueOf(unit));
    }

    public StringBuilder deleteCharAt(int index) {
        if (index < 0 || index >= text.length()) {
            throw new StringIndexOutOfBoundsException();
        }
        return replace(index, index + 1, "");
    }

    public StringBuilder delete(int begin, int end) {
        return replace(begin, end, "");
    }

    public StringBuilder replace(int begin, int end, String other) {
        int last = end < text.length() ? end : text.length();
        if (begin < 0 || begin > text.length() || begin > last) {
            throw new StringIndexOutOfBoundsException();
        }
        text = text.substring(0, begin).concat(other).concat(text.substring(last));
        return this;
    }

    public StringBuilder insert(int at, String other) {
        return replace(at, at, other == null ? "null" : other);
    }

    public StringBuilder insert(int at, Object object) {
        return insert(at, String.valueOf(object));
    }

    public StringBuilder insert(int at, char[] units) {
        return replace(at, at, String.valueOf(units));
    }

    public StringBuilder insert(int at, char[] units, int offset, int count) {
        return replace(at, at, String.valueOf(units, offset, count));
    }

    public StringBuilder insert(int at, CharSequence other) {
        return replace(at, at, other == null ? "null" : other.toString());
    }

    public StringBuilder insert(int at, CharSequence other, int begin, int end) {
        String all = other == null ? "null" : other.toString();
        if (at < 0 || at > text.length() || begin < 0 || begin > end || end > all.length()) {
            throw new IndexOutOfBoundsException();
        }
        return replace(at, at, all.substring(begin, end));
    }

    public StringBuilder insert(int at, char unit) {
        return replace(at, at, String.valueOf(unit));
    }

    public StringBuilder insert(int at, int number) {
        return replace(at, at, String.valueOf(number));
    }

    public StringBuilder insert(int at, boolean value) {
        return replace(at, at, String.valueOf(value));
    }

    public int indexOf(String other) {
        return text.indexOf(other);
    }

    public int indexOf(String other, int from) {
        return text.indexOf(other, from);
    }

    public int lastIndexOf(String other) {
        return text.lastIndexOf(other);
    }

    public int lastIndexOf(String other, int from) {
        return text.lastIndexOf(other, from);
    }

    public StringBuilder reverse() {
        StringBuilder made = new StringBuilder();
        for (int at = text.length() - 1; at >= 0; at--) {
            char unit = text.charAt(at);
            if (unit >= '\udc00' && unit < '\ue000' && at > 0) {
                char before = text.charAt(at - 1);
                if (before >= '\ud800' && before < '\udc00') {
                    made.append(before);
                    at--;
                }
            }
            made.append(unit);
        }
        text = made.text;
        return this;
    }

    public String substring(int begin) {
        return text.substring(begin);
    }

    public String substring(int begin, int end) {
        return text.substring(begin, end);
    }

    public CharSequence subSequence(int begin, int end) {
        return text.substring(begin, end);
    }
}
