package java.util;

/** Goes through elements once. Left out: `forEachRemaining`; `remove` has to be declared, as before Java 8. */
public interface Iterator<E> {
    boolean hasNext();

    E next();

    void remove();
}
