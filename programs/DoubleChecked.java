/** An object that is made once, by the first of three threads that asks for it. */
class DoubleChecked extends Thread {
    static volatile DoubleChecked only;
    static int made;
    DoubleChecked found;

    static DoubleChecked only() {
        DoubleChecked seen = only;
        if (seen == null) {
            synchronized (DoubleChecked.class) {
                seen = only;
                if (seen == null) {
                    made++;
                    only = seen = new DoubleChecked();
                }
            }
        }
        return seen;
    }

    public void run() {
        found = only();
    }

    public static void main(String[] args) throws InterruptedException {
        DoubleChecked first = new DoubleChecked();
        DoubleChecked second = new DoubleChecked();
        first.start();
        second.start();
        DoubleChecked mine = only();
        first.join();
        second.join();
        System.out.println(made);
        System.out.println(mine == first.found && mine == second.found ? 1 : 0);
    }
}
