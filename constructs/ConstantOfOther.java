/*
 * Classes and interfaces: a constant field of another object, which javac writes out
 *
 * ConstantOfOther.java:12: the class java.util.Objects, of a null check that javac writes: write an anonymous class
 *     for a method reference, call new Inner() in the class around it, make a constant field static
 */
class ConstantOfOther {
    final int number = 7;

    public static void main(String[] words) {
        ConstantOfOther other = new ConstantOfOther();
        System.out.println(other.number);
    }
}
