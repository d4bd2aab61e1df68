/** A synchronized method and a synchronized block, of an object that no other thread uses. */
public class Locks {
    int count;

    synchronized void add() {
        count++;
    }

    void addWithin() {
        synchronized (this) {
            count++;
        }
    }

    public static void main(String[] words) {
        Locks lock = new Locks();
        for (int i = 0; i < 50000; i++) {
            lock.add();
            lock.addWithin();
        }
        System.out.println(lock.count);
    }
}
