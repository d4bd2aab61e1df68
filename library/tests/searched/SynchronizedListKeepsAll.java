import java.util.ArrayList;
import java.util.Collections;
import java.util.List;

/** Two threads add to a synchronized list: both elements are there. */
class SynchronizedListKeepsAll {
    static void print(int number) {
        System.out.println(number);
    }

    static void print(boolean is) {
        System.out.println(is ? 1 : 0);
    }

    public static void main(String[] args) throws Exception {
        final List<Object> list = Collections.synchronizedList(new ArrayList<Object>(4));
        Thread one = new Thread() {
            public void run() {
                list.add(this);
            }
        };
        one.start();
        list.add(one);
        one.join();
        print(list.size());
    }
}
