/*
 * The library: `Serializable`
 *
 * MarkedClasses.java: the class java.io.Serializable: it does nothing here; leave it out
 */
class MarkedClasses implements java.io.Serializable {
    public static void main(String[] words) {
        System.out.println(7);
    }
}
