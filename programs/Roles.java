/** Threads by their names. */
class Roles implements Runnable {
    static final Object LOCK = new Object();

    public void run() {
        synchronized (LOCK) {
            System.out.println(Thread.currentThread().getName() + " runs");
        }
    }

    public static void main(String[] words) throws InterruptedException {
        Thread first = new Thread(new Roles());
        Thread second = new Thread(new Roles(), "second");
        Thread third = new Thread("third");
        Thread fourth = new Thread() {
            public void run() {
                System.out.println(getName() + " is below Thread");
            }
        };
        System.out.println(first.getName() + ", " + second.getName() + ", " + third.getName() + ", "
                + fourth.getName());
        System.out.println(Thread.currentThread() + " " + (first.getName() == first.getName()));
        first.setName("first");
        first.setPriority(Thread.MIN_PRIORITY);
        System.out.println(first + " " + first.getPriority() + " " + second.getPriority());
        first.start();
        first.join();
        second.start();
        second.join();
        third.start();
        fourth.start();
        fourth.join();
        third.join();
        try {
            third.setName(null);
        } catch (NullPointerException none) {
            System.out.println("a name is wanted");
        }
        try {
            new Thread((String) null);
        } catch (NullPointerException none) {
            System.out.println("a name is wanted");
        }
        try {
            first.setPriority(11);
        } catch (IllegalArgumentException outside) {
            System.out.println("there is no such priority");
        }
    }
}
