// refused 4 Unresolved file 0 method main([Ljava/lang/String;)V offset 0
/** The class of int is a field of Integer. */
final class IntClass {
    public static void main(String[] args) {
        Object ints = int.class;
    }
}
