/** Three threads tell of what failed in them, each in a text of its own. */
class Reports {
    static class Task extends Thread {
        private final int number;
        Throwable failed;

        Task(int number) {
            this.number = number;
        }

        public String toString() {
            return "task " + number;
        }

        public void run() {
            try {
                works(number);
                System.out.println(this + " is done");
            } catch (RuntimeException thrown) {
                failed = new IllegalStateException(this + " failed", thrown);
            }
        }

        private static void works(int number) {
            int[] counts = new int[2];
            counts[number] = 6 / number;
        }
    }

    public static void main(String[] words) throws InterruptedException {
        Task[] tasks = new Task[3];
        for (int number = 0; number < 3; number++) {
            tasks[number] = new Task(number);
            tasks[number].start();
        }
        for (Task task : tasks) {
            task.join();
        }
        for (Task task : tasks) {
            if (task.failed != null) {
                Throwable cause = task.failed.getCause();
                System.out.println(task.failed.getMessage() + ": " + cause.getClass().getSimpleName());
            }
        }
    }
}
