/** Two threads count with no lock, and take two locks in opposite orders. Kinds: race, uncaught, deadlock. */
class AllKinds extends Thread {
    static int n;
    final Object first;
    final Object second;

    AllKinds(Object first, Object second) {
        this.first = first;
        this.second = second;
    }

    public void run() {
        int at = n;
        n = at + 1;
        synchronized (first) {
            synchronized (second) {
                int[] one = new int[1];
                one[at] = 7;
            }
        }
    }

    public static void main(String[] args) {
        Object left = new Object();
        Object right = new Object();
        new AllKinds(left, right).start();
        new AllKinds(right, left).start();
    }
}
