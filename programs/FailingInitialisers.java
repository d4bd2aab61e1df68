/** An initialiser throws: one thread meets ExceptionInInitializerError, the other one NoClassDefFoundError. */
class FailingInitialisers extends Thread {
    static int first, later;

    static class Broken {
        static int value = 1 / (later - later);

        static void call() {
            System.out.println(-1);
        }
    }

    static synchronized void count(boolean isFirst) {
        if (isFirst) {
            first++;
        } else {
            later++;
        }
    }

    public void run() {
        try {
            Broken.call();
        } catch (ExceptionInInitializerError e) {
            count(true);
        } catch (NoClassDefFoundError e) {
            count(false);
        }
    }

    public static void main(String[] args) throws InterruptedException {
        FailingInitialisers other = new FailingInitialisers();
        other.start();
        new FailingInitialisers().run();
        other.join();
        System.out.println(first);
        System.out.println(later);
        try {
            System.out.println(Broken.value);
        } catch (LinkageError e) {
            System.out.println(e instanceof NoClassDefFoundError ? 1 : 0);
        }
        new Broken();
    }
}
