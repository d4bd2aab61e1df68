package java.util.concurrent;

/**
 * A barrier with phases, at which threads register and leave as they like.
 *
 * A phase ends where all that are registered have arrived; all that wait for it are woken at once. Left out: trees of
 * phasers, times, `toString`.
 */
public class Phaser {
    private int parties;
    private int missing;
    private int phase;

    public Phaser() {
        this(0);
    }

    public Phaser(int parties) {
        if (parties < 0 || parties > 65535) {
            throw new IllegalArgumentException();
        }
        this.parties = parties;
        missing = parties;
    }

    public int register() {
        return bulkRegister(1);
    }

    public synchronized int bulkRegister(int more) {
        if (more < 0) {
            throw new IllegalArgumentException();
        }
        if (phase >= 0) {
            if (parties + more > 65535) {
                throw new IllegalStateException();
            }
            parties += more;
            missing += more;
        }
        return phase;
    }

    public synchronized int arrive() {
        return arrived(0);
    }

    public synchronized int arriveAndDeregister() {
        return arrived(1);
    }

    private int arrived(int leaving) {
        int now = phase;
        if (now < 0) {
            return now;
        }
        if (missing == 0) {
            throw new IllegalStateException();
        }
        parties -= leaving;
        missing--;
        if (missing == 0) {
            advance();
        }
        return now;
    }

    private void advance() {
        boolean isLast = onAdvance(phase, parties);
        missing = parties;
        phase = isLast ? phase + 1 | 0x80000000 : phase + 1 & 0x7fffffff;
        notifyAll();
    }

    public synchronized int arriveAndAwaitAdvance() {
        return awaited(arrived(0));
    }

    public synchronized int awaitAdvance(int phase) {
        return awaited(phase);
    }

    public synchronized int awaitAdvanceInterruptibly(int phase) throws InterruptedException {
        if (phase < 0) {
            return phase;
        }
        while (this.phase == phase) {
            wait();
        }
        return this.phase;
    }

    private int awaited(int old) {
        if (old < 0) {
            return old;
        }
        boolean wasInterrupted = false;
        while (phase == old) {
            try {
                wait();
            } catch (InterruptedException interrupted) {
                wasInterrupted = true;
            }
        }
        if (wasInterrupted) {
            Thread.currentThread().interrupt();
        }
        return phase;
    }

    protected boolean onAdvance(int phase, int registeredParties) {
        return registeredParties == 0;
    }

    public synchronized void forceTermination() {
        phase |= 0x80000000;
        notifyAll();
    }

    public final synchronized int getPhase() {
        return phase;
    }

    public synchronized int getRegisteredParties() {
        return parties;
    }

    public synchronized int getArrivedParties() {
        return parties - missing;
    }

    public synchronized int getUnarrivedParties() {
        return missing;
    }

    public synchronized boolean isTerminated() {
        return phase < 0;
    }
}
