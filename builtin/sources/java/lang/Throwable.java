package java.lang;

import java.io.PrintStream;

/** What can be thrown (JLS 11.1.1). */
public class Throwable {
    private String message;

    private Throwable cause;

    /** None where it is null. */
    private Throwable[] suppressed;

    public Throwable() {}

    public Throwable(String message) {}

    public Throwable(String message, Throwable cause) {}

    public Throwable(Throwable cause) {
        this(cause == null ? null : cause.toString(), cause);
    }

    public String getMessage() {
        return message;
    }

    public String getLocalizedMessage() {
        return getMessage();
    }

    public Throwable getCause() {
        return cause;
    }

    public synchronized Throwable initCause(Throwable cause) {
        if (this.cause != null) {
            String given = cause == null ? "a null" : cause.toString();
            throw new IllegalStateException("Can't overwrite cause with ".concat(given), this);
        }
        if (cause == this) {
            throw new IllegalArgumentException("Self-causation not permitted", this);
        }
        this.cause = cause;
        return this;
    }

    public String toString() {
        String name = getClass().getName();
        String message = getLocalizedMessage();
        return message == null ? name : name.concat(": ").concat(message);
    }

    public void printStackTrace() {
        printStackTrace(System.err);
    }

    /** A line for this and for each cause, up to one that was told before. */
    public void printStackTrace(PrintStream stream) {
        stream.println(this);
        int count = 0;
        for (Throwable cause = getCause(); cause != null; cause = cause.getCause()) {
            Throwable told = this;
            for (int at = 0; at <= count && told != null; at++) {
                if (told == cause) {
                    return;
                }
                told = told.getCause();
            }
            stream.println("Caused by: ".concat(cause.toString()));
            count++;
        }
    }

    public Throwable fillInStackTrace() {
        return this;
    }

    public final synchronized void addSuppressed(Throwable exception) {
        if (exception == this) {
            throw new IllegalArgumentException("Self-suppression not permitted", exception);
        }
        if (exception == null) {
            throw new NullPointerException("Cannot suppress a null exception.");
        }
        int count = suppressed == null ? 0 : suppressed.length;
        Throwable[] all = new Throwable[count + 1];
        for (int at = 0; at < count; at++) {
            all[at] = suppressed[at];
        }
        all[count] = exception;
        suppressed = all;
    }

    public final synchronized Throwable[] getSuppressed() {
        int count = suppressed == null ? 0 : suppressed.length;
        Throwable[] all = new Throwable[count];
        for (int at = 0; at < count; at++) {
            all[at] = suppressed[at];
        }
        return all;
    }
}
