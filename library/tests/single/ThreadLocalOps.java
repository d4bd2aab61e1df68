/** ThreadLocal, by two threads one after the other. */
class ThreadLocalOps {
    static void print(int number) {
        System.out.println(number);
    }

    static void print(boolean is) {
        System.out.println(is ? 1 : 0);
    }

    public static void main(String[] args) throws Exception {
        final ThreadLocal<Integer> local = new ThreadLocal<Integer>() {
            protected Integer initialValue() {
                print(-1);
                return 5;
            }
        };
        print(local.get());
        local.set(6);
        Thread other = new Thread() {
            public void run() {
                print(local.get());
                local.set(7);
                print(local.get());
            }
        };
        other.start();
        other.join();
        print(local.get());
        local.remove();
        print(local.get());
        ThreadLocal<Integer> none = new ThreadLocal<Integer>();
        print(none.get() == null);
        none.set(1);
        print(none.get());
    }
}
