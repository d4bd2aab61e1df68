/*
 * Classes and interfaces: static nested classes, and private members between them
 *
 * It works.
 */
class NestedClasses {
    private static int secret = 7;

    private static class Nested {
        private int read() {
            return secret;
        }
    }

    public static void main(String[] words) {
        System.out.println(new Nested().read());
    }
}
