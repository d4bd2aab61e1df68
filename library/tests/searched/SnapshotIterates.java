import java.util.concurrent.CopyOnWriteArrayList;

/** One goes through a CopyOnWriteArrayList while another adds: it sees a list of some time. */
class SnapshotIterates {
    static void print(int number) {
        System.out.println(number);
    }

    static void print(boolean is) {
        System.out.println(is ? 1 : 0);
    }

    public static void main(String[] args) throws Exception {
        final CopyOnWriteArrayList<int[]> list = new CopyOnWriteArrayList<int[]>();
        Thread one = new Thread() {
            public void run() {
                list.add(new int[] {1});
            }
        };
        list.add(new int[] {2});
        one.start();
        int sum = 0;
        for (int[] each : list) {
            sum += each[0];
        }
        print(sum);
        one.join();
        print(list.size());
    }
}
