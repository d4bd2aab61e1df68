/*
 * Statements: `switch` on a `String`
 *
 * It works.
 */
class StringSwitch {
    static int number(String word) {
        switch (word) {
            case "one":
                return 1;
            default:
                return 0;
        }
    }

    public static void main(String[] words) {
        System.out.println(number("one"));
    }
}
