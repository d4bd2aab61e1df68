package java.util;

/** Elements, none of them twice. */
public interface Set<E> extends Collection<E> {
    boolean equals(Object other);

    int hashCode();
}
