/** Double-checked locking, with a field that is not volatile. Races: DoubleCheckedRace.made, DoubleCheckedRace.n. */
class DoubleCheckedRace extends Thread {
    static DoubleCheckedRace made;
    int n;

    static DoubleCheckedRace one() {
        if (made == null) {
            synchronized (DoubleCheckedRace.class) {
                if (made == null) {
                    DoubleCheckedRace fresh = new DoubleCheckedRace();
                    fresh.n = 1;
                    made = fresh;
                }
            }
        }
        return made;
    }

    public void run() {
        System.out.println(one().n);
    }

    public static void main(String[] args) throws InterruptedException {
        Thread first = new DoubleCheckedRace();
        Thread second = new DoubleCheckedRace();
        first.start();
        second.start();
        first.join();
        second.join();
    }
}
