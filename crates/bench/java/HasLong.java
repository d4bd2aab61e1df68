// refused 2 OutsideProfile file 0 method main([Ljava/lang/String;)V offset 2
/** An int becomes a long, by an opcode that is left out. */
final class HasLong {
    public static void main(String[] args) {
        long square = (long) args.length * args.length;
    }
}
