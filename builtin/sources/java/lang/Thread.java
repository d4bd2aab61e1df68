package java.lang;

/** A thread (JLS 17). */
public class Thread implements Runnable {
    /** What a constructor was given. */
    private Runnable target;

    /** Null before it is set, and asked for. */
    private String name;

    /** How many threads had been made by constructors that are given no name. */
    private int number;

    /** 0 before it is set. */
    private int priority;

    public void run() {
        if (target != null) {
            target.run();
        }
    }

    public final int getPriority() {
        return priority == 0 ? 5 : priority;
    }

    /** It is kept, and has no effect. */
    public final void setPriority(int priority) {
        if (priority < 1 || priority > 10) {
            throw new IllegalArgumentException();
        }
        this.priority = priority;
    }

    public String toString() {
        String named = "Thread[".concat(getName()).concat(",");
        return named.concat(String.valueOf(getPriority())).concat(",main]");
    }

    public Thread() {}

    public Thread(Runnable target) {}

    public Thread(String name) {}

    public Thread(Runnable target, String name) {}

    public final native String getName();

    public final native void setName(String name);

    public native void start();

    public native void interrupt();

    public native boolean isInterrupted();

    public static native boolean interrupted();

    public static native void yield();

    public static native Thread currentThread();

    public final native void join() throws InterruptedException;

    public final native boolean isAlive();
}
