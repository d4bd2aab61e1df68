/*
 * Strings and output: strings that are kept, handed on and compared by `==`; `+` of constants
 *
 * It works.
 */
class StringConstants {
    static final String WORD = "bar" + "rier" + 7;

    public static void main(String[] words) {
        String other = "barrier7";
        System.out.println(WORD == other ? 1 : 0);
    }
}
