/** Three philosophers at a round table, with a fork between each two. Each takes the one with the lower number first. */
class Repaired extends Thread {
    static final Object[] FORKS = {new Object(), new Object(), new Object()};

    final int seat;

    Repaired(int seat) {
        this.seat = seat;
    }

    int first() {
        return seat + 1 < FORKS.length ? seat : 0;
    }

    int second() {
        return seat + 1 < FORKS.length ? seat + 1 : seat;
    }

    public void run() {
        synchronized (FORKS[first()]) {
            synchronized (FORKS[second()]) {
                System.out.println(seat);
            }
        }
    }

    public static void main(String[] args) {
        for (int seat = 0; seat < FORKS.length; seat++) {
            new Repaired(seat).start();
        }
    }
}
