/** Two threads write two fields of one object. No race. */
class TwoFields extends Thread {
    static TwoFields shared;
    int left;
    int right;
    boolean isFirst;

    public void run() {
        if (isFirst) {
            shared.left = 1;
        } else {
            shared.right = 1;
        }
    }

    public static void main(String[] args) throws InterruptedException {
        shared = new TwoFields();
        TwoFields first = new TwoFields();
        TwoFields second = new TwoFields();
        first.isFirst = true;
        first.start();
        second.start();
        first.join();
        second.join();
    }
}
