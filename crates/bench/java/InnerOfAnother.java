// refused 4 Unresolved file 0 method main([Ljava/lang/String;)V offset 14
/** The object round a new one is asked to be no null, by Objects.requireNonNull. */
final class InnerOfAnother {
    class Inner {
    }

    public static void main(String[] args) {
        InnerOfAnother outer = new InnerOfAnother();
        Inner inner = outer.new Inner();
    }
}
