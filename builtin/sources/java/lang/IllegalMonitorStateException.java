package java.lang;

/** A thread does not own the monitor that it uses (JVMS 6.5 monitorexit). */
public class IllegalMonitorStateException extends RuntimeException {
    public IllegalMonitorStateException() {}

    public IllegalMonitorStateException(String message) {}
}
