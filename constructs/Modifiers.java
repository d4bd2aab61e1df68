/*
 * Classes and interfaces: `volatile`, `transient`, `final`, `protected`, `strictfp`
 *
 * It works.
 */
class Modifiers {
    private volatile int shared;
    protected transient int other;

    final strictfp int sum() {
        return shared + other;
    }

    public static void main(String[] words) {
        System.out.println(new Modifiers().sum());
    }
}
