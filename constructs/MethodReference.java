/*
 * Classes and interfaces: a method reference
 *
 * MethodReference/MethodReference.class: it has a constant that came after version 49.0, as a lambda needs one
 * MethodReference.java:13: a lambda or a method reference, for java.lang.Runnable: write an anonymous class
 */
class MethodReference {
    static void go() {
        System.out.println(7);
    }

    public static void main(String[] words) {
        Runnable task = MethodReference::go;
        task.run();
    }
}
