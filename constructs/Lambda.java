/*
 * Classes and interfaces: a lambda expression
 *
 * Lambda/Lambda.class: it has a constant that came after version 49.0, as a lambda needs one
 * Lambda.java:9: a lambda or a method reference, for java.lang.Runnable: write an anonymous class
 */
class Lambda {
    public static void main(String[] words) {
        Runnable task = () -> System.out.println(7);
        task.run();
    }
}
