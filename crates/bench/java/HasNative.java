// refused 2 OutsideProfile file 0 method nothing()I
/** A native method. */
final class HasNative {
    native int nothing();

    public static void main(String[] args) {
    }
}
