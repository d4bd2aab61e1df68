/** A StringBuilder that is no longer shared: a thread makes it, hands its String over in a field, and goes on with it. */
class Halves extends Thread {
    private String half;

    public void run() {
        StringBuilder own = new StringBuilder();
        for (char unit = 'a'; unit < 'e'; unit++) {
            own.append(unit);
            if (own.length() == 2) {
                give(own.toString());
            }
        }
        give(own.append(own).toString());
    }

    synchronized void give(String text) {
        while (half != null) {
            stay();
        }
        half = text;
        notifyAll();
    }

    synchronized String take() {
        while (half == null) {
            stay();
        }
        String taken = half;
        half = null;
        notifyAll();
        return taken;
    }

    private void stay() {
        try {
            wait();
        } catch (InterruptedException woken) {
            System.err.println("woken at " + half);
        }
    }

    public static void main(String[] args) {
        Halves other = new Halves();
        other.start();
        String first = other.take();
        System.out.println(first + "|" + other.take() + "|" + first);
    }
}
