import java.util.concurrent.locks.ReentrantLock;

/** Three philosophers take their forks, locks, in the order of their numbers. */
class DiningPhilosophers {
    public static void main(String[] args) throws Exception {
        final ReentrantLock[] forks = new ReentrantLock[3];
        final int[] meals = new int[3];
        Thread[] philosophers = new Thread[3];
        for (int i = 0; i < 3; i++) {
            forks[i] = new ReentrantLock();
        }
        for (int i = 0; i < 3; i++) {
            final int number = i;
            philosophers[i] = new Thread() {
                public void run() {
                    ReentrantLock first = forks[Math.min(number, (number + 1) % 3)];
                    ReentrantLock second = forks[Math.max(number, (number + 1) % 3)];
                    for (int meal = 0; meal < 4; meal++) {
                        first.lock();
                        second.lock();
                        meals[number]++;
                        second.unlock();
                        first.unlock();
                    }
                }
            };
            philosophers[i].start();
        }
        for (int i = 0; i < 3; i++) {
            philosophers[i].join();
            System.out.println(meals[i]);
        }
    }
}
