/** Two threads keep each other out by Peterson's three variables, with no monitor. */
class Peterson extends Thread {
    static volatile boolean firstWants, secondWants, isFirstToWait;
    static volatile int count;
    private final boolean isFirst;

    Peterson(boolean isFirst) {
        this.isFirst = isFirst;
    }

    private boolean mustWait() {
        return isFirst ? secondWants && isFirstToWait : firstWants && !isFirstToWait;
    }

    private void want(boolean wants) {
        if (isFirst) {
            firstWants = wants;
        } else {
            secondWants = wants;
        }
    }

    public void run() {
        for (int i = 0; i < 3; i++) {
            want(true);
            isFirstToWait = isFirst;
            while (mustWait()) {
                Thread.yield();
            }
            count++;
            want(false);
        }
    }

    public static void main(String[] args) throws InterruptedException {
        Peterson first = new Peterson(true);
        Peterson second = new Peterson(false);
        first.start();
        second.start();
        first.join();
        second.join();
        System.out.println(count);
    }
}
