// refused 2 OutsideProfile file 0
/** A field of a type that is left out. */
final class HasFloat {
    static final float HALF = 0.5f;

    public static void main(String[] args) {
    }
}
