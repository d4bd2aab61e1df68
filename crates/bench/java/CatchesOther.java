// refused 4 Unresolved file 0 method main([Ljava/lang/String;)V
/** An exception that is not there. */
final class CatchesOther {
    static void tried() throws java.io.IOException {
    }

    public static void main(String[] args) {
        try {
            tried();
        } catch (java.io.IOException e) {
            System.out.println(1);
        }
    }
}
