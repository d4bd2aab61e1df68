package java.util;

/** What a set has by its iterator and its size alone. */
public abstract class AbstractSet<E> extends AbstractCollection<E> implements Set<E> {
    protected AbstractSet() {
    }

    public boolean equals(Object other) {
        if (other == this) {
            return true;
        }
        return other instanceof Set && ((Set<?>) other).size() == size() && containsAll((Set<?>) other);
    }

    public int hashCode() {
        int sum = 0;
        for (Iterator<E> each = iterator(); each.hasNext();) {
            sum += Objects.hashCode(each.next());
        }
        return sum;
    }
}
