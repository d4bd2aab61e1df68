package java.util;

/** What a collection has by its iterator and its size alone. */
public abstract class AbstractCollection<E> implements Collection<E> {
    protected AbstractCollection() {
    }

    public boolean isEmpty() {
        return size() == 0;
    }

    public boolean contains(Object element) {
        for (Iterator<E> each = iterator(); each.hasNext();) {
            if (Objects.equals(element, each.next())) {
                return true;
            }
        }
        return false;
    }

    public boolean add(E element) {
        throw new UnsupportedOperationException();
    }

    public boolean remove(Object element) {
        for (Iterator<E> each = iterator(); each.hasNext();) {
            if (Objects.equals(element, each.next())) {
                each.remove();
                return true;
            }
        }
        return false;
    }

    public boolean containsAll(Collection<?> others) {
        for (Iterator<?> each = others.iterator(); each.hasNext();) {
            if (!contains(each.next())) {
                return false;
            }
        }
        return true;
    }

    public boolean addAll(Collection<? extends E> others) {
        boolean isChanged = false;
        for (Iterator<? extends E> each = others.iterator(); each.hasNext();) {
            isChanged |= add(each.next());
        }
        return isChanged;
    }

    public boolean removeAll(Collection<?> others) {
        return keep(others, false);
    }

    public boolean retainAll(Collection<?> others) {
        return keep(others, true);
    }

    private boolean keep(Collection<?> others, boolean areKept) {
        boolean isChanged = false;
        for (Iterator<E> each = iterator(); each.hasNext();) {
            if (others.contains(each.next()) != areKept) {
                each.remove();
                isChanged = true;
            }
        }
        return isChanged;
    }

    public void clear() {
        for (Iterator<E> each = iterator(); each.hasNext();) {
            each.next();
            each.remove();
        }
    }

    public Object[] toArray() {
        Object[] made = new Object[size()];
        int at = 0;
        for (Iterator<E> each = iterator(); each.hasNext();) {
            made[at++] = each.next();
        }
        return made;
    }

    /** Where the given array has no room, it has to be of Strings, Integers, Characters or Booleans. */
    @SuppressWarnings("unchecked")
    public <T> T[] toArray(T[] array) {
        int size = size();
        T[] made = array.length < size ? Objects.arrayLike(array, size) : array;
        if (made == null) {
            throw new UnsupportedOperationException("no array of this class is made: give one that has room");
        }
        int at = 0;
        for (Iterator<E> each = iterator(); each.hasNext();) {
            made[at++] = (T) each.next();
        }
        if (at < made.length) {
            made[at] = null;
        }
        return made;
    }

    public String toString() {
        StringBuilder made = new StringBuilder("[");
        String between = "";
        for (Iterator<E> each = iterator(); each.hasNext();) {
            E element = each.next();
            made.append(between).append(element == this ? "(this Collection)" : element);
            between = ", ";
        }
        return made.append(']').toString();
    }
}
