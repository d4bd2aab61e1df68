/*
 * Newer than Java 8: a `switch` expression, and `case ->`
 *
 * javac refuses it.
 */
class SwitchExpression {
    public static void main(String[] words) {
        int number = switch (words.length) {
            case 0 -> 7;
            default -> 8;
        };
        System.out.println(number);
    }
}
