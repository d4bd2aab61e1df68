package java.lang;

/**
 * A char as an object.
 *
 * Boxing gives one object for each of 0 to 127 (JLS 5.1.7), which is made where it is first asked for, under the
 * lock of the class; and a new one for each other char. Letters and digits are those of Latin-1 alone. Left out:
 * code points, but for `isAlphabetic`; TYPE, names, categories and blocks.
 */
public final class Character implements Comparable<Character>, java.io.Serializable {
    public static final char MIN_VALUE = 0;
    public static final char MAX_VALUE = 0xffff;
    public static final int MIN_RADIX = 2;
    public static final int MAX_RADIX = 36;
    public static final int SIZE = 16;
    public static final int BYTES = 2;

    private static Character[] kept;

    private final char value;

    public Character(char value) {
        this.value = value;
    }

    public static Character valueOf(char value) {
        return value > 127 ? new Character(value) : kept(value);
    }

    private static synchronized Character kept(char value) {
        if (kept == null) {
            kept = new Character[128];
        }
        Character one = kept[value];
        if (one == null) {
            one = new Character(value);
            kept[value] = one;
        }
        return one;
    }

    public char charValue() {
        return value;
    }

    public String toString() {
        return String.valueOf(value);
    }

    public static String toString(char value) {
        return String.valueOf(value);
    }

    public boolean equals(Object other) {
        return other instanceof Character && ((Character) other).value == value;
    }

    public int hashCode() {
        return value;
    }

    public static int hashCode(char value) {
        return value;
    }

    public int compareTo(Character other) {
        return value - other.value;
    }

    public static int compare(char a, char b) {
        return a - b;
    }

    public static boolean isDigit(char value) {
        return value >= '0' && value <= '9';
    }

    public static boolean isUpperCase(char value) {
        return value >= 'A' && value <= 'Z' || value >= 0xc0 && value <= 0xde && value != 0xd7;
    }

    public static boolean isLowerCase(char value) {
        return value >= 'a' && value <= 'z' || value >= 0xdf && value <= 0xff && value != 0xf7
                || value == 0xaa || value == 0xb5 || value == 0xba;
    }

    public static boolean isLetter(char value) {
        return isUpperCase(value) || isLowerCase(value);
    }

    public static boolean isLetterOrDigit(char value) {
        return isLetter(value) || isDigit(value);
    }

    public static boolean isAlphabetic(int point) {
        return point >= 0 && point <= MAX_VALUE && isLetter((char) point);
    }

    public static boolean isWhitespace(char value) {
        return value >= 9 && value <= 13 || value >= 28 && value <= 32;
    }

    public static boolean isSpaceChar(char value) {
        return value == 32 || value == 0xa0;
    }

    public static boolean isISOControl(char value) {
        return value <= 31 || value >= 127 && value <= 159;
    }

    public static boolean isHighSurrogate(char value) {
        return value >= 0xd800 && value <= 0xdbff;
    }

    public static boolean isLowSurrogate(char value) {
        return value >= 0xdc00 && value <= 0xdfff;
    }

    public static boolean isSurrogate(char value) {
        return value >= 0xd800 && value <= 0xdfff;
    }

    public static boolean isSurrogatePair(char high, char low) {
        return isHighSurrogate(high) && isLowSurrogate(low);
    }

    public static char toUpperCase(char value) {
        if (value == 0xb5) {
            return 0x39c;
        }
        if (value == 0xff) {
            return 0x178;
        }
        boolean hasOther = isLowerCase(value) && value != 0xaa && value != 0xba && value != 0xdf;
        return hasOther ? (char) (value - 32) : value;
    }

    public static char toLowerCase(char value) {
        return isUpperCase(value) ? (char) (value + 32) : value;
    }

    public static int digit(char value, int radix) {
        int found = -1;
        if (isDigit(value)) {
            found = value - '0';
        } else if (value < 128 && isLetter(value)) {
            found = toLowerCase(value) - 'a' + 10;
        }
        return radix >= MIN_RADIX && radix <= MAX_RADIX && found < radix ? found : -1;
    }

    public static char forDigit(int digit, int radix) {
        if (radix < MIN_RADIX || radix > MAX_RADIX || digit < 0 || digit >= radix) {
            return 0;
        }
        return (char) (digit < 10 ? '0' + digit : 'a' + digit - 10);
    }

    public static int getNumericValue(char value) {
        if (value == 0xb2 || value == 0xb3) {
            return value - 0xb0;
        }
        if (value == 0xb9) {
            return 1;
        }
        return value >= 0xbc && value <= 0xbe ? -2 : digit(value, MAX_RADIX);
    }

    public static char reverseBytes(char value) {
        return (char) (value << 8 | value >> 8);
    }
}
