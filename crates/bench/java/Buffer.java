// accepted
/** A buffer of ints between threads that put and threads that take. */
final class Buffer {
    private final int[] slots;
    private int first;
    private int count;
    private static int taken;

    Buffer(int size) {
        slots = new int[size];
    }

    synchronized void put(int value) throws InterruptedException {
        while (count == slots.length) {
            wait();
        }
        slots[(first + count) % slots.length] = value;
        count++;
        notifyAll();
    }

    synchronized int take() throws InterruptedException {
        while (count == 0) {
            wait();
        }
        int value = slots[first];
        first = (first + 1) % slots.length;
        count--;
        notifyAll();
        return value;
    }

    private final class Producer extends Thread {
        private final int amount;

        Producer(int amount) {
            this.amount = amount;
        }

        public void run() {
            try {
                for (int value = 1; value <= amount; value++) {
                    put(value);
                }
            } catch (InterruptedException e) {
                interrupt();
            }
        }
    }

    private final class Consumer implements Runnable {
        private int sum;

        public void run() {
            try {
                while (!Thread.interrupted()) {
                    sum += take();
                    synchronized (Buffer.class) {
                        taken++;
                    }
                }
            } catch (InterruptedException e) {
                first = 0;
            } finally {
                System.out.println(sum);
            }
        }
    }

    private void serve(int amount) throws InterruptedException {
        Producer producer = new Producer(amount);
        Consumer consumer = new Consumer();
        Thread thread = new Thread(consumer);
        producer.start();
        thread.start();
        producer.join();
        while (count > 0) {
            Thread.yield();
        }
        thread.interrupt();
        thread.join();
        System.out.println(consumer.sum - producer.amount);
    }

    public static void main(String[] args) throws InterruptedException {
        new Buffer(3).serve(10);
        System.out.println(taken);
    }
}
