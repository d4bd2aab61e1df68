/** Two workers take tasks from a list until it is closed. */
class Workers implements Runnable {
    private static class Node {
        final Runnable task;
        Node next;

        Node(Runnable task) {
            this.task = task;
        }
    }

    private Node head, last;
    private boolean isClosed;
    static int sum;

    synchronized void submit(Runnable task) {
        Node node = new Node(task);
        if (head == null) {
            head = node;
        } else {
            last.next = node;
        }
        last = node;
        notify();
    }

    synchronized void close() {
        isClosed = true;
        notifyAll();
    }

    private synchronized Runnable next() throws InterruptedException {
        while (head == null) {
            if (isClosed) {
                return null;
            }
            wait();
        }
        Runnable task = head.task;
        head = head.next;
        return task;
    }

    public void run() {
        try {
            for (Runnable task = next(); task != null; task = next()) {
                task.run();
            }
        } catch (InterruptedException e) {
            System.out.println(-1);
        }
    }

    public static void main(String[] args) throws InterruptedException {
        Workers pool = new Workers();
        Thread[] threads = {new Thread(pool), new Thread(pool)};
        threads[0].start();
        threads[1].start();
        for (int i = 1; i <= 4; i++) {
            final int amount = i * i;
            pool.submit(new Runnable() {
                public void run() {
                    synchronized (Workers.class) {
                        sum += amount;
                    }
                }
            });
        }
        pool.close();
        threads[0].join();
        threads[1].join();
        System.out.println(sum);
    }
}
