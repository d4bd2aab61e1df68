/** Two threads box one small int: it is one object. */
class BoxedOnce {
    static void print(int number) {
        System.out.println(number);
    }

    static void print(boolean is) {
        System.out.println(is ? 1 : 0);
    }

    public static void main(String[] args) throws Exception {
        final Integer[] boxed = new Integer[1];
        Thread one = new Thread() {
            public void run() {
                boxed[0] = 100;
            }
        };
        one.start();
        Integer mine = 100;
        one.join();
        print(mine == boxed[0]);
    }
}
