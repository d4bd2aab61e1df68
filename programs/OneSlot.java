/** A producer and a consumer share a place for one number, by wait and notify. */
class OneSlot {
    private int value;
    private boolean isFull;

    synchronized void put(int next) throws InterruptedException {
        while (isFull) {
            wait();
        }
        value = next;
        isFull = true;
        notify();
    }

    synchronized int take() throws InterruptedException {
        while (!isFull) {
            wait();
        }
        isFull = false;
        notify();
        return value;
    }

    public static void main(String[] args) throws InterruptedException {
        final OneSlot slot = new OneSlot();
        Thread producer = new Thread(new Runnable() {
            public void run() {
                try {
                    for (int i = 1; i <= 4; i++) {
                        slot.put(i * i);
                    }
                    slot.put(-1);
                } catch (InterruptedException e) {
                    System.out.println(-2);
                }
            }
        });
        producer.start();
        for (int taken = slot.take(); taken != -1; taken = slot.take()) {
            System.out.println(taken);
        }
    }
}
