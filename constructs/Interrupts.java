/*
 * Threads: `interrupt`, `isInterrupted`, `interrupted`, `InterruptedException`
 *
 * It works.
 */
class Interrupts {
    public static void main(String[] words) {
        Thread main = Thread.currentThread();
        main.interrupt();
        System.out.println(main.isInterrupted() ? 1 : 0);
        try {
            synchronized (main) {
                main.wait();
            }
        } catch (InterruptedException thrown) {
            System.out.println(Thread.interrupted() ? 1 : 0);
        }
    }
}
