/*
 * Newer than Java 8: `instanceof` with a pattern
 *
 * javac refuses it.
 */
class InstanceofPattern {
    public static void main(String[] words) {
        Object object = words;
        if (object instanceof String[] found) {
            System.out.println(found.length);
        }
    }
}
