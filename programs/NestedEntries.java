/** A monitor that is entered three times by its owner is left whole by wait, and entered whole again. */
class NestedEntries extends Thread {
    private int state;

    synchronized void outer() throws InterruptedException {
        synchronized (this) {
            inner();
        }
    }

    private synchronized void inner() throws InterruptedException {
        state = 1;
        notifyAll();
        while (state != 2) {
            wait();
        }
        System.out.println(state);
    }

    public void run() {
        synchronized (this) {
            try {
                while (state != 1) {
                    wait();
                }
            } catch (InterruptedException e) {
                System.out.println(-1);
            }
            state = 2;
            notifyAll();
        }
    }

    public static void main(String[] args) throws InterruptedException {
        NestedEntries both = new NestedEntries();
        both.start();
        both.outer();
        both.join();
        try {
            both.notify();
        } catch (IllegalMonitorStateException e) {
            System.out.println(3);
        }
    }
}
