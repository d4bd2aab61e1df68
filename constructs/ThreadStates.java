/*
 * Threads: `getState` of a thread
 *
 * ThreadStates.java:8: java.lang.Thread.getState(): ask isAlive()
 */
class ThreadStates {
    public static void main(String[] words) {
        Object state = Thread.currentThread().getState();
    }
}
