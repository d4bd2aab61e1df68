package java.lang;

/** The class that all others are below (JLS 4.3.2). */
public class Object {
    public Object() {}

    public native int hashCode();

    public final native Class getClass();

    protected native Object clone() throws CloneNotSupportedException;

    public final native void wait() throws InterruptedException;

    public final native void notify();

    public final native void notifyAll();

    public boolean equals(Object other) {
        return this == other;
    }

    public String toString() {
        return String.described(this, hashCode());
    }
}
