package java.util.concurrent;

/**
 * Threads wait here until as many are there as belong together; then all go on, and it begins anew.
 *
 * The last one to come does the action, before any of them goes on. Where one is interrupted, or the action throws, the
 * barrier is broken for all of this round, until `reset`. Left out: times.
 */
public class CyclicBarrier {
    static final class Round {
        boolean isBroken;
        boolean isOver;
    }

    private final int parties;
    private final Runnable action;
    private Round round = new Round();
    private int missing;

    public CyclicBarrier(int parties) {
        this(parties, null);
    }

    public CyclicBarrier(int parties, Runnable action) {
        if (parties <= 0) {
            throw new IllegalArgumentException();
        }
        this.parties = parties;
        this.action = action;
        missing = parties;
    }

    public synchronized int await() throws InterruptedException, BrokenBarrierException {
        Round mine = round;
        if (mine.isBroken) {
            throw new BrokenBarrierException();
        }
        if (Thread.interrupted()) {
            breakRound();
            throw new InterruptedException();
        }
        missing--;
        int index = missing;
        if (index == 0) {
            act();
            mine.isOver = true;
            begin();
            return 0;
        }
        while (!mine.isOver && !mine.isBroken) {
            waitIn(mine);
        }
        if (mine.isBroken) {
            throw new BrokenBarrierException();
        }
        return index;
    }

    private void waitIn(Round mine) throws InterruptedException {
        try {
            wait();
        } catch (InterruptedException interrupted) {
            if (mine == round && !mine.isBroken) {
                breakRound();
                throw interrupted;
            }
            Thread.currentThread().interrupt();
        }
    }

    private void act() {
        boolean isDone = false;
        try {
            if (action != null) {
                action.run();
            }
            isDone = true;
        } finally {
            if (!isDone) {
                breakRound();
            }
        }
    }

    private void begin() {
        round = new Round();
        missing = parties;
        notifyAll();
    }

    private void breakRound() {
        round.isBroken = true;
        missing = parties;
        notifyAll();
    }

    public synchronized void reset() {
        round.isBroken = true;
        begin();
    }

    public int getParties() {
        return parties;
    }

    public synchronized boolean isBroken() {
        return round.isBroken;
    }

    public synchronized int getNumberWaiting() {
        return parties - missing;
    }
}
