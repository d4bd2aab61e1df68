// refused 4 Unresolved file 0 method main([Ljava/lang/String;)V offset 2
/** An int becomes an Integer. */
final class HasBoxing {
    public static void main(String[] args) {
        Object number = args.length;
    }
}
