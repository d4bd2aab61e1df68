/** Strings that are made of others, of ints and of chars: where nothing is added or left out, they are the receiver. */
class Pieces {
    static final int LEAST = -2147483648;
    static final int MOST = 2147483647;
    static final String HELLO = "hello";

    static void part(String text, int begin, int end) {
        try {
            System.out.print(text.substring(begin, end));
            System.out.print('|');
        } catch (StringIndexOutOfBoundsException outside) {
            System.out.print("outside|");
        }
    }

    static void joined(String text, String other) {
        try {
            System.out.print(text.concat(other));
            System.out.print('|');
        } catch (NullPointerException none) {
            System.out.print("null|");
        }
    }

    static void isSame(Object one, Object other) {
        System.out.print(one == other ? "same " : "other ");
    }

    static void parts() {
        part(HELLO, 0, 5);
        part(HELLO, 1, 3);
        part(HELLO, 4, 5);
        part(HELLO, 0, 0);
        part(HELLO, 5, 5);
        part("", 0, 0);
        part("\ud83d\ude00", 0, 1);
        part("\ud83d\ude00", 1, 2);
        System.out.println();
        part(HELLO, 2, 1);
        part(HELLO, 0, 6);
        part(HELLO, -1, 2);
        part(HELLO, 6, 6);
        part(HELLO, LEAST, MOST);
        part(HELLO, MOST, LEAST);
        part(HELLO, 0, -1);
        part("", 0, 1);
        System.out.println();
    }

    static void joins() {
        joined(HELLO, " world");
        joined("", HELLO);
        joined(HELLO, "");
        joined("", "");
        joined("\ud83d", "\ude00");
        joined("\ude00", "\ud83d");
        joined(HELLO, null);
        joined("", null);
        System.out.println();
    }

    static void numbers() {
        System.out.println(String.valueOf(0));
        System.out.println(String.valueOf(-7));
        System.out.println(String.valueOf(LEAST).concat(String.valueOf(MOST)));
        System.out.println(String.valueOf('\u00e9').concat(String.valueOf('\0')).length());
        System.out.println(String.valueOf((char) 65601));
    }

    static void identities() {
        String none = "";
        isSame(HELLO.substring(0, 5), HELLO);
        isSame(HELLO.concat(none), HELLO);
        isSame(none.concat(HELLO), HELLO);
        isSame(none.substring(0, 0), none);
        isSame("hel".concat("lo"), HELLO);
        isSame(String.valueOf('a'), String.valueOf('a'));
        isSame(String.valueOf(7), "7");
        System.out.println();
    }

    static String repeated(String text, int count) {
        String all = "";
        for (int done = 0; done < count; done++) {
            all = all.concat(text);
        }
        return all;
    }

    public static void main(String[] args) {
        parts();
        joins();
        numbers();
        identities();
        System.out.println(repeated("ab", 20));
        System.out.println(repeated("ab", 20).hashCode());
    }
}
