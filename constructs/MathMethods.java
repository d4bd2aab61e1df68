/*
 * The library: `Math`
 *
 * MathMethods.java:9: the class java.lang.Math: write the method yourself, on ints
 * MathMethods.java:10: the class java.lang.Math: write the method yourself, on ints
 */
class MathMethods {
    public static void main(String[] words) {
        System.out.println(Math.max(3, 7));
        System.out.println((int) Math.sqrt(49));
    }
}
