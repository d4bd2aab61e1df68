/** Three threads count up without a lock. */
class LostUpdateOfThree extends Thread {
    static int count;

    public void run() {
        count = count + 1;
    }

    public static void main(String[] args) throws InterruptedException {
        Thread first = new LostUpdateOfThree();
        Thread second = new LostUpdateOfThree();
        Thread third = new LostUpdateOfThree();
        first.start();
        second.start();
        third.start();
        first.join();
        second.join();
        third.join();
        System.out.println(count);
    }
}
