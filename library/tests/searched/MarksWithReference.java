import java.util.concurrent.atomic.AtomicMarkableReference;

/** A mark and a reference change together. */
class MarksWithReference {
    static void print(int number) {
        System.out.println(number);
    }

    static void print(boolean is) {
        System.out.println(is ? 1 : 0);
    }

    public static void main(String[] args) throws Exception {
        final int[] a = {1};
        final AtomicMarkableReference<int[]> node = new AtomicMarkableReference<int[]>(a, false);
        Thread one = new Thread() {
            public void run() {
                node.set(new int[] {2}, true);
            }
        };
        one.start();
        boolean[] mark = new boolean[1];
        int[] seen = node.get(mark);
        print(seen[0]);
        print(mark[0]);
        one.join();
    }
}
