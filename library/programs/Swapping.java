import java.util.ArrayList;
import java.util.List;
import java.util.concurrent.Exchanger;

/** Two threads exchange their buffers. */
class Swapping {
    public static void main(String[] args) throws Exception {
        final Exchanger<List<Integer>> exchanger = new Exchanger<List<Integer>>();
        Thread filler = new Thread() {
            public void run() {
                try {
                    List<Integer> buffer = new ArrayList<Integer>();
                    for (int round = 0; round < 3; round++) {
                        buffer.add(round);
                        buffer.add(round * 10);
                        buffer = exchanger.exchange(buffer);
                    }
                } catch (InterruptedException e) {
                    System.out.println(-1);
                }
            }
        };
        filler.start();
        List<Integer> buffer = new ArrayList<Integer>();
        for (int round = 0; round < 3; round++) {
            buffer = exchanger.exchange(buffer);
            for (int each : buffer) {
                System.out.println(each);
            }
            buffer.clear();
        }
    }
}
