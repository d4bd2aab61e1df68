/** Two threads write two elements of one array. No race. */
class TwoElements extends Thread {
    static int[] a = new int[2];
    int place;

    public void run() {
        a[place] = 1;
    }

    public static void main(String[] args) throws InterruptedException {
        TwoElements first = new TwoElements();
        TwoElements second = new TwoElements();
        second.place = 1;
        first.start();
        second.start();
        first.join();
        second.join();
    }
}
