/** Two threads call a method on null: an event that throws accesses nothing. No race. */
class ThrowsInAppend extends Thread {
    static StringBuilder none;

    public void run() {
        none.append('b');
    }

    public static void main(String[] args) {
        new ThrowsInAppend().start();
        new ThrowsInAppend().start();
    }
}
