/*
 * Methods that every object has: `finalize` of `Object`
 *
 * ObjectMethods.java:8: java.lang.Object.finalize(): nothing calls it; leave it out
 */
class ObjectMethods {
    public static void main(String[] words) throws Throwable {
        new ObjectMethods().finalize();
    }
}
