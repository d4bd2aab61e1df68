/** What Strings answer of lengths, units, places and regions, and how they compare; what lies outside is an exception. */
class Answers {
    static final int LEAST = -2147483648;
    static final int MOST = 2147483647;
    static final String HELLO = "hello";

    static void say(boolean is) {
        System.out.print(is ? "yes " : "no ");
    }

    static void say(int number) {
        System.out.print(number);
        System.out.print(' ');
    }

    static void unit(String text, int index) {
        try {
            System.out.print(text.charAt(index));
            System.out.print(' ');
        } catch (StringIndexOutOfBoundsException outside) {
            System.out.print("outside ");
        }
    }

    static void compare(String text, String other) {
        try {
            say(text.compareTo(other));
        } catch (NullPointerException none) {
            System.out.print("null ");
        }
    }

    static void region(String text, int at, String other, int from, int count) {
        try {
            say(text.regionMatches(at, other, from, count));
        } catch (NullPointerException none) {
            System.out.print("null ");
        }
    }

    static void lengthsAndUnits() {
        say("".length());
        say(HELLO.length());
        say("\0\ud83d\ude00".length());
        unit(HELLO, 0);
        unit(HELLO, 4);
        unit(HELLO, 5);
        unit(HELLO, -1);
        unit(HELLO, LEAST);
        unit(HELLO, MOST);
        unit("", 0);
        System.out.println();
    }

    static void equalTexts() {
        Object same = HELLO;
        say(HELLO.equals(same));
        say(HELLO.equals(String.valueOf('h').concat("ello")));
        say(HELLO.equals("hell"));
        say(HELLO.equals("hellp"));
        say(HELLO.equals(null));
        say(HELLO.equals(new Object()));
        say("".equals(""));
        say("".equals("\0"));
        System.out.println();
    }

    static void hashes() {
        say("".hashCode());
        say("a".hashCode());
        say(HELLO.hashCode());
        say("The quick brown fox".hashCode());
        say("\uffff\uffff\uffff".hashCode());
        say("polygenelubricants".hashCode());
        System.out.println();
    }

    static void comparisons() {
        compare("abc", "abd");
        compare("b", "a");
        compare("abc", "abc");
        compare("abc", "a");
        compare("", "abc");
        compare("\0", "\uffff");
        compare("\uffff", "\0");
        compare("\ud83d\ude00", "\ufb01");
        compare("", "");
        compare("", null);
        System.out.println();
    }

    static void places() {
        say(HELLO.indexOf('l', 0));
        say(HELLO.indexOf('l', 3));
        say(HELLO.indexOf('l', 4));
        say(HELLO.indexOf('h', -1));
        say(HELLO.indexOf('h', LEAST));
        say(HELLO.indexOf('o', 5));
        say(HELLO.indexOf('o', MOST));
        say(HELLO.indexOf(-1, 0));
        say(HELLO.indexOf('h' - 65536, 0));
        say("".indexOf(0, 0));
        say("a\0".indexOf(0, 0));
        say("\ud83d\ude00".indexOf('\ude00', 1));
        System.out.println();
    }

    static void regions() {
        region(HELLO, 2, "ll", 0, 2);
        region(HELLO, 2, "all", 1, 2);
        region(HELLO, 2, "lo", 0, 2);
        region(HELLO, 2, "ll", 0, 3);
        region(HELLO, 3, "loud", 0, 3);
        region(HELLO, 5, "", 0, 0);
        region(HELLO, 6, "", 0, 0);
        region(HELLO, 0, "", 1, 0);
        System.out.println();
    }

    static void oddRegions() {
        region(HELLO, -1, HELLO, 0, 1);
        region(HELLO, 0, HELLO, -1, 1);
        region(HELLO, 0, "x", 0, -1);
        region(HELLO, 6, "x", 2, -1);
        region(HELLO, 7, "x", 0, -1);
        region(HELLO, MOST, "x", MOST, LEAST);
        region(HELLO, MOST, HELLO, MOST, MOST);
        region(HELLO, 0, HELLO, 0, LEAST);
        region(HELLO, LEAST, HELLO, 0, LEAST);
        region(HELLO, -1, null, 0, 0);
        System.out.println();
    }

    static int placeOf(String word) {
        switch (word) {
            case "one":
                return 1;
            case "Aa":
                return 2;
            case "BB":
                return 3;
            default:
                return 0;
        }
    }

    public static void main(String[] args) {
        lengthsAndUnits();
        equalTexts();
        hashes();
        comparisons();
        places();
        regions();
        oddRegions();
        say(placeOf("BB"));
        say(placeOf("Aa"));
        say(placeOf("o".concat("ne")));
        say(placeOf("two"));
        System.out.println();
    }
}
