/** An object that is made where none is seen, with no monitor: maybe more than once. Races. */
class LazyTwice extends Thread {
    static Object only;
    static int made;

    static Object only() {
        if (only == null) {
            made++;
            only = new Object();
        }
        return only;
    }

    public void run() {
        only();
    }

    public static void main(String[] args) throws InterruptedException {
        LazyTwice other = new LazyTwice();
        other.start();
        Object mine = only();
        other.join();
        System.out.println(made);
        System.out.println(mine == only ? 1 : 0);
    }
}
