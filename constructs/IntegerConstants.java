/*
 * Types and operators: `Integer.MAX_VALUE` and other constants, which javac writes out
 *
 * It works.
 */
class IntegerConstants {
    static final int MOST = Integer.MAX_VALUE - Short.MAX_VALUE;

    public static void main(String[] words) {
        System.out.println(MOST - Character.MAX_VALUE);
    }
}
