/*
 * Exceptions: `throw`, `try`, `catch` and `finally`, and classes of exceptions of your own
 *
 * It works.
 */
class Exceptions {
    static class Closed extends Exception {
        final int number;

        Closed(int number) {
            this.number = number;
        }
    }

    static void enter() throws Closed {
        throw new Closed(7);
    }

    public static void main(String[] words) {
        try {
            enter();
        } catch (Closed closed) {
            System.out.println(closed.number);
        } finally {
            System.out.println(8);
        }
    }
}
