// refused 2 OutsideProfile file 0 method main([Ljava/lang/String;)V offset 0
/** An array class as a constant. */
final class ArrayClass {
    public static void main(String[] args) {
        Object ints = int[].class;
    }
}
