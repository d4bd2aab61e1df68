// accepted
/** Threads of anonymous classes that read variables of the method round them. */
class Counter {
    private static int total;
    private int own;

    private Thread counting(final int times, final Object lock) {
        return new Thread() {
            private int done;

            public void run() {
                while (done < times) {
                    synchronized (lock) {
                        total += 1;
                        own--;
                    }
                    done = done + 1;
                }
            }
        };
    }

    static class Halves {
        private static int half(int n) {
            return n >> 1;
        }
    }

    public static void main(String[] args) throws InterruptedException {
        Counter counter = new Counter();
        Thread one = counter.counting(5, counter);
        Thread two = counter.counting(7, Counter.class);
        one.start();
        two.start();
        one.join();
        two.join();
        System.out.println(one.isAlive() ? 1 : Halves.half(total));
        System.out.println(counter.own);
        try {
            one.start();
        } catch (IllegalThreadStateException e) {
            System.out.println(Thread.currentThread() == one ? 1 : 0);
        }
    }
}
