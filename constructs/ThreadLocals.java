/*
 * Threads: `ThreadLocal`
 *
 * ThreadLocals.java: the field java.lang.ThreadLocal KEPT: the class java.lang.ThreadLocal: keep it in a field of
 *     your class of threads
 * ThreadLocals.java:13: the class java.lang.ThreadLocal: keep it in a field of your class of threads
 * ThreadLocals.java:10: the class java.lang.ThreadLocal: keep it in a field of your class of threads
 */
class ThreadLocals {
    static final ThreadLocal<Object> KEPT = new ThreadLocal<Object>();

    public static void main(String[] words) {
        KEPT.set(words);
    }
}
