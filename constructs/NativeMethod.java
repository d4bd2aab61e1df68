/*
 * Classes and interfaces: a native method
 *
 * NativeMethod.java: the method int number(), which is native: write it in Java
 */
class NativeMethod {
    static native int number();

    public static void main(String[] words) {
        System.out.println(number());
    }
}
