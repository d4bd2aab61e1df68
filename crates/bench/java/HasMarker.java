// refused 4 Unresolved file 0
/** An interface that is not there. */
final class HasMarker implements java.util.RandomAccess {
    public static void main(String[] args) {
    }
}
