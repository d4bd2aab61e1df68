package java.util;

/** Goes through elements once, as the oldest classes do. */
public interface Enumeration<E> {
    boolean hasMoreElements();

    E nextElement();
}
