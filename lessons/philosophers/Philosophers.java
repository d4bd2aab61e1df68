/** Three philosophers at a round table, with a fork between each two. Each takes the one to the left, and then the other. */
class Philosophers extends Thread {
    static final Object[] FORKS = {new Object(), new Object(), new Object()};

    final int seat;

    Philosophers(int seat) {
        this.seat = seat;
    }

    int first() {
        return seat;
    }

    int second() {
        return (seat + 1) % FORKS.length;
    }

    public void run() {
        synchronized (FORKS[first()]) {
            synchronized (FORKS[second()]) {
                System.out.println(seat);
            }
        }
    }

    public static void main(String[] args) {
        for (int seat = 0; seat < FORKS.length; seat++) {
            new Philosophers(seat).start();
        }
    }
}
