/*
 * Threads: groups of threads
 *
 * ThreadGroups.java:10: the class java.lang.ThreadGroup: there are no groups of threads; leave it out
 * ThreadGroups.java:11: new java.lang.Thread(java.lang.ThreadGroup, java.lang.String): take new Thread() or new
 *     Thread(Runnable), with a name or without
 */
class ThreadGroups {
    public static void main(String[] words) {
        ThreadGroup group = new ThreadGroup("all");
        Thread one = new Thread(group, "one");
    }
}
