/** Five philosophers, each of whom takes the fork with the lower number first. */
public class Philosophers extends Thread {
    static final int SEATS = 5;
    static final int MEALS = 20000;

    final Object first;
    final Object second;
    int eaten;

    Philosophers(Object first, Object second) {
        this.first = first;
        this.second = second;
    }

    public void run() {
        for (int i = 0; i < MEALS; i++) {
            synchronized (first) {
                synchronized (second) {
                    eaten++;
                }
            }
        }
    }

    public static void main(String[] words) throws InterruptedException {
        Object[] forks = new Object[SEATS];
        for (int i = 0; i < SEATS; i++) {
            forks[i] = new Object();
        }
        Philosophers[] seats = new Philosophers[SEATS];
        for (int i = 0; i < SEATS; i++) {
            int next = (i + 1) % SEATS;
            seats[i] = next > i ? new Philosophers(forks[i], forks[next]) : new Philosophers(forks[next], forks[i]);
            seats[i].start();
        }
        int eaten = 0;
        for (int i = 0; i < SEATS; i++) {
            seats[i].join();
            eaten += seats[i].eaten;
        }
        System.out.println(eaten);
    }
}
