/*
 * Statements: `switch` on an `int` or a `char`
 *
 * It works.
 */
class IntSwitch {
    public static void main(String[] words) {
        for (char letter = 'a'; letter < 'e'; letter++) {
            switch (letter) {
                case 'a':
                case 'c':
                    System.out.println(1);
                    break;
                default:
                    System.out.println(2);
            }
        }
    }
}
