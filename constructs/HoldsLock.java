/*
 * Threads: `Thread.holdsLock`
 *
 * HoldsLock.java:8: java.lang.Thread.holdsLock(java.lang.Object): jvm trace tells who owns a monitor; leave it out
 */
class HoldsLock {
    public static void main(String[] words) {
        System.out.println(Thread.holdsLock(words) ? 1 : 0);
    }
}
