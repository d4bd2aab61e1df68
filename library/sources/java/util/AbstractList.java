package java.util;

/**
 * What a list has by `get`, `size`, `set`, `add` and `remove` at an index alone.
 *
 * Its iterators throw ConcurrentModificationException where the list was changed by others since. `subList` is a copy.
 */
public abstract class AbstractList<E> extends AbstractCollection<E> implements List<E> {
    protected int modCount;

    protected AbstractList() {
    }

    public E set(int index, E element) {
        throw new UnsupportedOperationException();
    }

    public void add(int index, E element) {
        throw new UnsupportedOperationException();
    }

    public E remove(int index) {
        throw new UnsupportedOperationException();
    }

    public boolean add(E element) {
        add(size(), element);
        return true;
    }

    public boolean addAll(int index, Collection<? extends E> others) {
        int at = index;
        for (Iterator<? extends E> each = others.iterator(); each.hasNext();) {
            add(at++, each.next());
        }
        return at > index;
    }

    public int indexOf(Object element) {
        int size = size();
        for (int at = 0; at < size; at++) {
            if (Objects.equals(element, get(at))) {
                return at;
            }
        }
        return -1;
    }

    public int lastIndexOf(Object element) {
        for (int at = size() - 1; at >= 0; at--) {
            if (Objects.equals(element, get(at))) {
                return at;
            }
        }
        return -1;
    }

    public boolean contains(Object element) {
        return indexOf(element) >= 0;
    }

    public boolean remove(Object element) {
        int at = indexOf(element);
        if (at < 0) {
            return false;
        }
        remove(at);
        return true;
    }

    public void clear() {
        for (int at = size() - 1; at >= 0; at--) {
            remove(at);
        }
    }

    public List<E> subList(int from, int to) {
        if (from < 0) {
            throw new IndexOutOfBoundsException("fromIndex = " + from);
        }
        if (to > size()) {
            throw new IndexOutOfBoundsException("toIndex = " + to);
        }
        if (from > to) {
            throw new IllegalArgumentException("fromIndex(" + from + ") > toIndex(" + to + ")");
        }
        List<E> made = new ArrayList<E>(to - from);
        for (int at = from; at < to; at++) {
            made.add(get(at));
        }
        return made;
    }

    public boolean equals(Object other) {
        if (!(other instanceof List)) {
            return false;
        }
        Iterator<?> theirs = ((List<?>) other).iterator();
        for (Iterator<E> each = iterator(); each.hasNext();) {
            if (!theirs.hasNext() || !Objects.equals(each.next(), theirs.next())) {
                return false;
            }
        }
        return !theirs.hasNext();
    }

    public int hashCode() {
        int made = 1;
        for (Iterator<E> each = iterator(); each.hasNext();) {
            made = 31 * made + Objects.hashCode(each.next());
        }
        return made;
    }

    public Iterator<E> iterator() {
        return new Walk<E>(this, 0);
    }

    public ListIterator<E> listIterator() {
        return new Walk<E>(this, 0);
    }

    public ListIterator<E> listIterator(int index) {
        if (index < 0 || index > size()) {
            throw new IndexOutOfBoundsException("Index: " + index);
        }
        return new Walk<E>(this, index);
    }

    static final class Walk<E> implements ListIterator<E> {
        private final AbstractList<E> list;
        private int at;
        private int last = -1;
        private int count;

        Walk(AbstractList<E> list, int at) {
            this.list = list;
            this.at = at;
            count = list.modCount;
        }

        private void check() {
            if (list.modCount != count) {
                throw new ConcurrentModificationException();
            }
        }

        private E stepped(int to, int over) {
            check();
            if (over < 0 || over >= list.size()) {
                throw new NoSuchElementException();
            }
            at = to;
            last = over;
            return list.get(over);
        }

        private int taken() {
            if (last < 0) {
                throw new IllegalStateException();
            }
            check();
            return last;
        }

        public boolean hasNext() {
            return at != list.size();
        }

        public E next() {
            return stepped(at + 1, at);
        }

        public boolean hasPrevious() {
            return at > 0;
        }

        public E previous() {
            return stepped(at - 1, at - 1);
        }

        public int nextIndex() {
            return at;
        }

        public int previousIndex() {
            return at - 1;
        }

        public void remove() {
            list.remove(taken());
            if (last < at) {
                at--;
            }
            last = -1;
            count = list.modCount;
        }

        public void set(E element) {
            list.set(taken(), element);
            count = list.modCount;
        }

        public void add(E element) {
            check();
            list.add(at++, element);
            last = -1;
            count = list.modCount;
        }
    }
}
