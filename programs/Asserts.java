/** What a class asserts: that which holds does nothing, and that which doesn't ends its thread. */
class Asserts extends Thread {
    final int number;

    Asserts(int number) {
        this.number = number;
    }

    public void run() {
        assert number > 0;
        System.out.println(number);
        assert number > 1;
        System.out.println("not reached by 1");
    }

    public static void main(String[] args) throws InterruptedException {
        for (int number = 0; number < 3; number++) {
            Thread thread = new Asserts(number);
            thread.start();
            thread.join();
        }
        try {
            assert args == null;
            System.out.println("not reached");
        } catch (AssertionError failed) {
            System.out.println("failed");
        }
    }
}
