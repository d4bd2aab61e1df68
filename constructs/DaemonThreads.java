/*
 * Threads: daemon threads
 *
 * DaemonThreads.java:10: java.lang.Thread.setDaemon(boolean): there are no daemon threads; end it by a flag or an
 *     interrupt
 */
class DaemonThreads {
    public static void main(String[] words) {
        Thread one = new Thread();
        one.setDaemon(true);
        one.start();
    }
}
