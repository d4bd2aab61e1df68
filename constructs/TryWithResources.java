/*
 * Statements: `try` with resources
 *
 * TryWithResources.java: the class java.lang.AutoCloseable, of a try with resources: write try and finally
 */
class TryWithResources {
    static class Door implements AutoCloseable {
        public void close() {
            System.out.println(2);
        }
    }

    public static void main(String[] words) {
        try (Door door = new Door()) {
            System.out.println(1);
        }
    }
}
