/** Two threads write one element of one array, and each another one. Races: [0] of int[] #. */
class OneElement extends Thread {
    static int[] a = new int[3];
    int place = 1;

    public void run() {
        a[0] = 1;
        a[place] = 1;
    }

    public static void main(String[] args) throws InterruptedException {
        OneElement first = new OneElement();
        OneElement second = new OneElement();
        second.place = 2;
        first.start();
        second.start();
        first.join();
        second.join();
    }
}
