/*
 * Statements: `synchronized`, of blocks and of methods
 *
 * It works.
 */
class Synchronized {
    static int count;

    static synchronized void add() {
        count++;
    }

    public static void main(String[] words) {
        Object lock = new Object();
        synchronized (lock) {
            add();
        }
        System.out.println(count);
    }
}
