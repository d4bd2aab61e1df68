/*
 * Methods that every object has: `hashCode` and `toString` of `Object`
 *
 * It works.
 */
class ObjectHashCode {
    public static void main(String[] words) {
        Object one = new Object();
        System.out.println(one.hashCode() == System.identityHashCode(one));
        System.out.println(one.toString());
    }
}
