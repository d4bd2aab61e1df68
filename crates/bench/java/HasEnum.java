// refused 4 Unresolved file 1
/** An enum is below java.lang.Enum, which is not built in. */
final class HasEnum {
    enum Color { RED, GREEN }

    public static void main(String[] args) {
        Color color = Color.RED;
    }
}
