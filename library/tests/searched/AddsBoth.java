import java.util.concurrent.CopyOnWriteArrayList;

/** Two threads add to a CopyOnWriteArrayList: both elements are there. */
class AddsBoth {
    static void print(int number) {
        System.out.println(number);
    }

    static void print(boolean is) {
        System.out.println(is ? 1 : 0);
    }

    public static void main(String[] args) throws Exception {
        final CopyOnWriteArrayList<Object> list = new CopyOnWriteArrayList<Object>();
        Thread one = new Thread() {
            public void run() {
                list.add(this);
            }
        };
        one.start();
        list.add(one);
        one.join();
        print(list.size());
    }
}
