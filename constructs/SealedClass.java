/*
 * Newer than Java 8: a sealed class
 *
 * javac refuses it.
 */
sealed class SealedClass permits Only {
    public static void main(String[] words) {
        System.out.println(7);
    }
}

final class Only extends SealedClass {
}
