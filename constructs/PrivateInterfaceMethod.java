/*
 * Newer than Java 8: a private method of an interface
 *
 * javac refuses it.
 */
interface PrivateInterfaceMethod {
    private int seven() {
        return 7;
    }
}
