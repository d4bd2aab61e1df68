/** Three philosophers take their lower fork first, so that none starves. */
class Philosophers extends Thread {
    static final Object[] FORKS = {new Object(), new Object(), new Object()};
    static int meals;
    private final int place;

    Philosophers(int place) {
        this.place = place;
    }

    static synchronized void eat() {
        meals++;
    }

    public void run() {
        int other = (place + 1) % FORKS.length;
        Object lower = FORKS[place < other ? place : other];
        Object upper = FORKS[place < other ? other : place];
        for (int i = 0; i < 2; i++) {
            synchronized (lower) {
                synchronized (upper) {
                    eat();
                }
            }
        }
    }

    public static void main(String[] args) throws InterruptedException {
        Philosophers[] all = new Philosophers[FORKS.length];
        for (int i = 0; i < all.length; i++) {
            all[i] = new Philosophers(i);
            all[i].start();
        }
        for (int i = 0; i < all.length; i++) {
            all[i].join();
        }
        System.out.println(meals);
    }
}
