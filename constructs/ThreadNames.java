/*
 * Threads: names of threads
 *
 * It works.
 */
class ThreadNames {
    public static void main(String[] words) {
        Runnable task = null;
        Thread one = new Thread(task, "one");
        one.setName("first");
        System.out.println(one.getName());
        System.out.println(new Thread().getName());
        System.out.println(Thread.currentThread());
    }
}
