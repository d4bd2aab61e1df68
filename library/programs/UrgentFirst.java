import java.util.concurrent.PriorityBlockingQueue;

/** Tasks of a priority queue are done by one worker, the most urgent first. */
class UrgentFirst {
    static class Task implements Comparable<Task> {
        final int urgency;

        Task(int urgency) {
            this.urgency = urgency;
        }

        public int compareTo(Task other) {
            return other.urgency - urgency;
        }
    }

    public static void main(String[] args) throws Exception {
        final PriorityBlockingQueue<Task> tasks = new PriorityBlockingQueue<Task>();
        int[] urgencies = {3, 9, 1, 7, 5};
        for (int urgency : urgencies) {
            tasks.put(new Task(urgency));
        }
        Thread worker = new Thread() {
            public void run() {
                try {
                    for (int i = 0; i < 5; i++) {
                        System.out.println(tasks.take().urgency);
                    }
                } catch (InterruptedException e) {
                    System.out.println(-1);
                }
            }
        };
        worker.start();
        worker.join();
    }
}
