/** Two threads write one field of one object, and one of an object of their own. Races: OneField.left. */
class OneField extends Thread {
    static OneField shared;
    int left;
    int right;

    public void run() {
        shared.left = 1;
        right = 1;
    }

    public static void main(String[] args) throws InterruptedException {
        shared = new OneField();
        Thread first = new OneField();
        Thread second = new OneField();
        first.start();
        second.start();
        first.join();
        second.join();
    }
}
