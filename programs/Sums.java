/** `+` of Strings, ints, chars, booleans, narrower ints and null, from left to right; `+=` keeps what it makes. */
class Sums {
    static final String NONE = null;
    static int asked;

    static int next() {
        asked++;
        return asked;
    }

    static void constants() {
        final int two = 2;
        final String both = "a" + two + 'b' + true;
        System.out.println(both);
        System.out.println(both == "a2btrue" ? "constant" : "made");
        String other = "a" + asked;
        System.out.println(other == "a0" ? "constant" : "made");
        System.out.println(other.equals("a0"));
    }

    static void kinds(int number, char unit, boolean is, byte least, short low, String text) {
        System.out.println("int " + number + ", char " + unit + ", boolean " + is);
        System.out.println("byte " + least + ", short " + low + ", String " + text + ", null " + NONE);
        System.out.println(number + number + "|" + number + number);
        System.out.println(unit + number + "|" + unit + number);
        System.out.println("" + unit + unit + (char) (unit + 1));
        System.out.println(text + text + NONE + "");
    }

    static void orders() {
        System.out.println(next() + "," + next() + "," + (next() + next()));
        String grown = "[";
        for (int count = 0; count < 4; count++) {
            grown += count;
            grown += ' ';
        }
        grown += grown.length() + "]";
        System.out.println(grown);
        String[] words = {"x", null};
        words[asked - 4] += asked;
        words[next() - 4] += next();
        System.out.println(words[0] + words[1]);
    }

    public static void main(String[] args) {
        constants();
        kinds(-7, 'z', false, (byte) 200, (short) 40000, "\u00e9\ud83d");
        orders();
        System.out.println("least " + -2147483648 + " " + (-2147483647 - next()) + " most " + Integers.MOST);
    }

    static class Integers {
        static int MOST = 2147483647;
    }
}
