/*
 * Classes and interfaces: `other.new Inner()`
 *
 * InnerOfOther.java:13: the class java.util.Objects, of a null check that javac writes: write an anonymous class
 *     for a method reference, call new Inner() in the class around it, make a constant field static
 */
class InnerOfOther {
    class Step {
    }

    public static void main(String[] words) {
        InnerOfOther all = new InnerOfOther();
        Step step = all.new Step();
        System.out.println(step == null ? 0 : 1);
    }
}
