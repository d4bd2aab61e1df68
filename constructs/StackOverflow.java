/*
 * Exceptions: `StackOverflowError`, which a frame too many throws
 *
 * It works.
 */
class StackOverflow {
    static int deep(int depth) {
        return deep(depth + 1) + 1;
    }

    public static void main(String[] words) {
        try {
            deep(0);
        } catch (StackOverflowError thrown) {
            System.out.println(7);
        }
    }
}
