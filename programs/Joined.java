/** Texts are joined by `+` and by `+=`: of Strings, ints, chars and booleans, and of null. */
class Joined {
    static String text = "n";

    static String of(String word, int number, char sign, boolean answer) {
        return word + number + sign + answer + ".";
    }

    public static void main(String[] args) {
        String none = null;
        System.out.println(of("seven ", 7, '!', true));
        System.out.println(of(null, -2147483648, '\u00e9', false));
        System.out.println(none + none);
        for (int number = 0; number < 4; number++) {
            text += number % 2 == 0 ? "" + number : number + "" + (char) ('a' + number);
        }
        System.out.println(text);
        System.out.println(("a" + "b").equals("a".concat("b")));
        System.out.println('a' + 1 + "x" + 'a' + 1);
        System.out.println("" + "" + none);
    }
}
