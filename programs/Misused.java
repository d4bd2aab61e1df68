/** notify and wait without the monitor, and a second start, throw. */
class Misused extends Thread {
    public void run() {
        System.out.println(5);
    }

    public static void main(String[] args) throws InterruptedException {
        Misused other = new Misused();
        try {
            other.notify();
        } catch (IllegalMonitorStateException e) {
            System.out.println(1);
        }
        try {
            other.wait();
        } catch (IllegalMonitorStateException e) {
            System.out.println(2);
        }
        other.interrupt();
        System.out.println(other.isAlive() ? 0 : 3);
        other.join();
        other.run();
        other.start();
        try {
            other.start();
        } catch (IllegalThreadStateException e) {
            other.join();
            System.out.println(4);
        }
        other.start();
    }
}
