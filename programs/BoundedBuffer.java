/** Two producers and two consumers share a ring of two places, by wait and notifyAll. */
class BoundedBuffer {
    private final int[] places = new int[2];
    private int first, count;

    synchronized void put(int value) throws InterruptedException {
        while (count == places.length) {
            wait();
        }
        places[(first + count) % places.length] = value;
        count++;
        notifyAll();
    }

    synchronized int take() throws InterruptedException {
        while (count == 0) {
            wait();
        }
        int value = places[first];
        first = (first + 1) % places.length;
        count--;
        notifyAll();
        return value;
    }

    static class Producer extends Thread {
        final BoundedBuffer buffer;
        final int from;

        Producer(BoundedBuffer buffer, int from) {
            this.buffer = buffer;
            this.from = from;
        }

        public void run() {
            try {
                for (int i = 0; i < 3; i++) {
                    buffer.put(from + i);
                }
            } catch (InterruptedException e) {
                throw new IllegalStateException();
            }
        }
    }

    static class Consumer extends Thread {
        final BoundedBuffer buffer;
        int sum;

        Consumer(BoundedBuffer buffer) {
            this.buffer = buffer;
        }

        public void run() {
            try {
                for (int i = 0; i < 3; i++) {
                    sum += buffer.take();
                }
            } catch (InterruptedException e) {
                throw new IllegalStateException();
            }
        }
    }

    public static void main(String[] args) throws InterruptedException {
        BoundedBuffer buffer = new BoundedBuffer();
        Producer[] producers = {new Producer(buffer, 10), new Producer(buffer, 200)};
        Consumer[] consumers = {new Consumer(buffer), new Consumer(buffer)};
        for (int i = 0; i < 2; i++) {
            consumers[i].start();
            producers[i].start();
        }
        int sum = 0;
        for (int i = 0; i < 2; i++) {
            producers[i].join();
            consumers[i].join();
            sum += consumers[i].sum;
        }
        System.out.println(sum);
    }
}
