import java.util.List;
import java.util.concurrent.CopyOnWriteArrayList;

/** Listeners that are added while others are called: a CopyOnWriteArrayList. */
class Listeners {
    public static void main(String[] args) throws Exception {
        final List<Runnable> listeners = new CopyOnWriteArrayList<Runnable>();
        listeners.add(new Runnable() {
            public void run() {
                System.out.println(1);
                listeners.add(new Runnable() {
                    public void run() {
                        System.out.println(2);
                    }
                });
            }
        });
        for (int i = 0; i < 2; i++) {
            for (Runnable each : listeners) {
                each.run();
            }
        }
        System.out.println(listeners.size());
    }
}
