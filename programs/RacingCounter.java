/** Two threads add to one number with no monitor: sums are lost, as the turns go. Races. */
class RacingCounter implements Runnable {
    static int count;

    public void run() {
        for (int i = 0; i < 4; i++) {
            count++;
        }
    }

    public static void main(String[] args) throws InterruptedException {
        RacingCounter both = new RacingCounter();
        Thread first = new Thread(both);
        Thread second = new Thread(both);
        first.start();
        second.start();
        first.join();
        second.join();
        System.out.println(count);
    }
}
