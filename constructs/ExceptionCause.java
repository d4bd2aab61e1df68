/*
 * Exceptions: an exception with a cause
 *
 * It works.
 */
class ExceptionCause {
    public static void main(String[] words) {
        try {
            throw new RuntimeException(new IllegalStateException("closed"));
        } catch (RuntimeException thrown) {
            System.out.println(thrown.getMessage());
            System.out.println(thrown.getCause().getMessage());
        }
    }
}
