/** Two threads put numbers into a ring of places, and two others take them, by wait and notifyAll. */
public class Buffer {
    static final int EACH = 5000;

    final int[] places = new int[16];
    int first;
    int count;

    synchronized void put(int value) throws InterruptedException {
        while (count == places.length) {
            wait();
        }
        places[(first + count++) % places.length] = value;
        notifyAll();
    }

    synchronized int take() throws InterruptedException {
        while (count == 0) {
            wait();
        }
        int value = places[first];
        first = (first + 1) % places.length;
        count--;
        notifyAll();
        return value;
    }

    public static void main(String[] words) throws InterruptedException {
        Buffer buffer = new Buffer();
        User[] users = new User[4];
        for (int i = 0; i < users.length; i++) {
            users[i] = new User(buffer, i < 2);
            users[i].start();
        }
        int sum = 0;
        for (int i = 0; i < users.length; i++) {
            users[i].join();
            sum += users[i].sum;
        }
        System.out.println(sum);
    }
}

class User extends Thread {
    final Buffer buffer;
    final boolean puts;
    int sum;

    User(Buffer buffer, boolean puts) {
        this.buffer = buffer;
        this.puts = puts;
    }

    public void run() {
        try {
            for (int i = 0; i < Buffer.EACH; i++) {
                if (puts) {
                    buffer.put(i);
                } else {
                    sum += buffer.take();
                }
            }
        } catch (InterruptedException exception) {
            throw new IllegalStateException();
        }
    }
}
