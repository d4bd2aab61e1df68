/*
 * Threads: `stop`, `suspend` and `resume` of threads
 *
 * StoppedThreads.java:13: java.lang.Thread.suspend(): end it by a flag or an interrupt
 * StoppedThreads.java:14: java.lang.Thread.resume(): end it by a flag or an interrupt
 * StoppedThreads.java:15: java.lang.Thread.stop(): end it by a flag or an interrupt
 */
@SuppressWarnings("deprecation")
class StoppedThreads {
    public static void main(String[] words) {
        Thread one = new Thread();
        one.start();
        one.suspend();
        one.resume();
        one.stop();
    }
}
