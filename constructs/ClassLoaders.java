/*
 * The library: class loaders
 *
 * ClassLoaders.java: the class java.lang.ClassLoader: no class is loaded in a run; leave it out
 * ClassLoaders.java:8: the class java.lang.ClassLoader: no class is loaded in a run; leave it out
 * ClassLoaders.java:10: java.lang.Class.getClassLoader(): there is no reflection; leave it out
 */
class ClassLoaders extends ClassLoader {
    public static void main(String[] words) {
        ClassLoader loader = ClassLoaders.class.getClassLoader();
    }
}
