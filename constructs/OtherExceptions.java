/*
 * Exceptions: a class of exceptions that isn't built in
 *
 * OtherExceptions.java:11: the class java.lang.UnsupportedOperationException: it is not built in; take one that is,
 *     as RuntimeException, or a class of your own
 * OtherExceptions.java:17: the class java.lang.NumberFormatException: it is not built in; take one that is, as
 *     RuntimeException, or a class of your own
 */
class OtherExceptions {
    static void add() {
        throw new UnsupportedOperationException();
    }

    public static void main(String[] words) throws Exception {
        try {
            add();
        } catch (NumberFormatException thrown) {
            System.out.println(7);
        }
    }
}
