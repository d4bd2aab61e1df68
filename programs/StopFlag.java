/** A thread goes in a circle until it sees a flag. */
class StopFlag extends Thread {
    static volatile boolean isStopped;
    int turns;

    public void run() {
        while (!isStopped) {
            turns++;
            Thread.yield();
        }
    }

    public static void main(String[] args) throws InterruptedException {
        StopFlag other = new StopFlag();
        other.start();
        isStopped = true;
        other.join();
        System.out.println(other.turns >= 0 ? 1 : 0);
    }
}
