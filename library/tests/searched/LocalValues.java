/** Each thread has its own value of a ThreadLocal. */
class LocalValues {
    static void print(int number) {
        System.out.println(number);
    }

    static void print(boolean is) {
        System.out.println(is ? 1 : 0);
    }

    public static void main(String[] args) throws Exception {
        final ThreadLocal<int[]> local = new ThreadLocal<int[]>() {
            protected int[] initialValue() {
                return new int[1];
            }
        };
        Thread one = new Thread() {
            public void run() {
                local.get()[0]++;
            }
        };
        one.start();
        local.get()[0] += 5;
        one.join();
        print(local.get()[0]);
    }
}
