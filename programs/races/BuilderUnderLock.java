/** A thread adds to a StringBuilder under a monitor, and another one asks for its text under the same. No race. */
class BuilderUnderLock extends Thread {
    static final StringBuilder text = new StringBuilder();

    public void run() {
        synchronized (text) {
            text.append(1);
        }
    }

    public static void main(String[] args) throws InterruptedException {
        Thread first = new BuilderUnderLock();
        first.start();
        synchronized (text) {
            System.out.println(text.toString());
        }
        first.join();
    }
}
