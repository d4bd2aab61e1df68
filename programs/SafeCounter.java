/** Two threads add to one number, by a synchronized method. */
class SafeCounter {
    private int count;

    synchronized void add(int n) {
        count += n;
    }

    synchronized int count() {
        return count;
    }

    static class Adder extends Thread {
        private final SafeCounter counter;
        private final int each;

        Adder(SafeCounter counter, int each) {
            this.counter = counter;
            this.each = each;
        }

        public void run() {
            for (int i = 0; i < 5; i++) {
                counter.add(each);
            }
        }
    }

    public static void main(String[] args) throws InterruptedException {
        SafeCounter counter = new SafeCounter();
        Adder one = new Adder(counter, 1);
        Adder ten = new Adder(counter, 10);
        one.start();
        ten.start();
        one.join();
        ten.join();
        System.out.println(counter.count());
    }
}
