/** Numbers go through three threads, each of which hands them on by a slot with room for one. */
public class Pipeline extends Thread {
    static final int ITEMS = 20000;

    static class Slot {
        private int value;
        private boolean full;

        synchronized void put(int given) throws InterruptedException {
            while (full) {
                wait();
            }
            value = given;
            full = true;
            notifyAll();
        }

        synchronized int take() throws InterruptedException {
            while (!full) {
                wait();
            }
            full = false;
            notifyAll();
            return value;
        }
    }

    final Slot from;
    final Slot to;

    Pipeline(Slot from, Slot to) {
        this.from = from;
        this.to = to;
    }

    public void run() {
        try {
            for (int i = 0; i < ITEMS; i++) {
                to.put(from.take() * 3 + 1);
            }
        } catch (InterruptedException stopped) {
            System.out.println(-1);
        }
    }

    public static void main(String[] words) throws InterruptedException {
        Slot[] slots = new Slot[4];
        for (int i = 0; i < slots.length; i++) {
            slots[i] = new Slot();
        }
        for (int i = 0; i + 1 < slots.length; i++) {
            new Pipeline(slots[i], slots[i + 1]).start();
        }
        int sum = 0;
        for (int i = 0; i < ITEMS; i++) {
            slots[0].put(i);
            sum ^= slots[3].take();
        }
        System.out.println(sum);
    }
}
