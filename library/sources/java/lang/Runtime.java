package java.lang;

/**
 * What a run is told about its machine: two processors. Left out: sizes of memory (a long), processes, hooks, and the
 * end of a run.
 */
public class Runtime {
    private static Runtime current;

    private Runtime() {
    }

    public static synchronized Runtime getRuntime() {
        if (current == null) {
            current = new Runtime();
        }
        return current;
    }

    public int availableProcessors() {
        return 2;
    }

    /** Nothing: an object that nobody can reach makes no difference. */
    public void gc() {
    }
}
