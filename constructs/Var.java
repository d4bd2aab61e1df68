/*
 * Newer than Java 8: `var`
 *
 * javac refuses it.
 */
class Var {
    public static void main(String[] words) {
        var number = 7;
        System.out.println(number);
    }
}
