/*
 * The library: reflection
 *
 * Reflection.java:11: java.lang.Class.forName(java.lang.String): there is no reflection; leave it out
 * Reflection.java:12: java.lang.Class.newInstance(): there is no reflection; leave it out
 * Reflection.java:13: java.lang.Class.getMethod(java.lang.String, java.lang.Class[]): there is no reflection; leave
 *     it out
 */
class Reflection {
    public static void main(String[] words) throws Exception {
        Class<?> named = Class.forName("Reflection");
        Object made = named.newInstance();
        java.lang.reflect.Method method = named.getMethod("main");
    }
}
