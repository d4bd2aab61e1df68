/** An array is cloned, of which another thread writes an element. Races: [1] of int[] #. */
class ClonedArray extends Thread {
    static final int[] shared = new int[3];

    public void run() {
        shared[1] = 7;
    }

    public static void main(String[] args) {
        new ClonedArray().start();
        int[] own = shared.clone();
        own[1] = 2;
        System.out.println(own.length);
    }
}
