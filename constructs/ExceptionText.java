/*
 * Exceptions: the message of an exception, and what `printStackTrace` prints without frames
 *
 * It works.
 */
class ExceptionText {
    public static void main(String[] words) {
        try {
            throw new IllegalStateException("closed");
        } catch (IllegalStateException thrown) {
            System.out.println(thrown.getMessage());
            thrown.printStackTrace();
        }
    }
}
