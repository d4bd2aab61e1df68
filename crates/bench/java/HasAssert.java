// accepted
/** The class is asked whether it asserts. */
final class HasAssert {
    public static void main(String[] args) {
        assert args != null;
    }
}
