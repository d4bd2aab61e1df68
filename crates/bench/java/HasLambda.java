// refused 1 Malformed file 0 offset 57 Tag
/** An entry of the constant pool for invokedynamic. */
final class HasLambda {
    public static void main(String[] args) {
        Runnable runnable = () -> { };
        runnable.run();
    }
}
