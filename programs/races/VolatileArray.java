/** The field of an array is volatile; its elements are not. Races: [0] of int[] #. */
class VolatileArray extends Thread {
    static volatile int[] a = new int[1];

    public void run() {
        int[] mine = a;
        mine[0] = 1;
        a = mine;
    }

    public static void main(String[] args) throws InterruptedException {
        Thread first = new VolatileArray();
        Thread second = new VolatileArray();
        first.start();
        second.start();
        first.join();
        second.join();
    }
}
