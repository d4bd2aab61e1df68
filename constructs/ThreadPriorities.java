/*
 * Threads: priorities of threads, which have no effect
 *
 * It works.
 */
class ThreadPriorities {
    public static void main(String[] words) {
        Thread.currentThread().setPriority(7);
        System.out.println(Thread.currentThread().getPriority());
    }
}
