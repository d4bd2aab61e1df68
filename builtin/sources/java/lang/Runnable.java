package java.lang;

/** What a thread can be given to run. */
public interface Runnable {
    void run();
}
