// refused 2 OutsideProfile file 0 method main([Ljava/lang/String;)V offset 2
/** An array of arrays at once, by multianewarray. */
final class HasMatrix {
    public static void main(String[] args) {
        int[][] matrix = new int[2][3];
    }
}
