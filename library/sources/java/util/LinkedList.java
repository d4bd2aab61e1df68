package java.util;

/**
 * A list of nodes that know both neighbours, and a queue with two ends. Not for several threads at once. Left out:
 * `clone`.
 */
public class LinkedList<E> extends AbstractList<E> implements Deque<E>, java.io.Serializable {
    static final class Node {
        Object element;
        Node before;
        Node behind;
    }

    /** It stands behind the last one and before the first. */
    private final Node ends = new Node();
    private int size;

    public LinkedList() {
        ends.before = ends;
        ends.behind = ends;
    }

    public LinkedList(Collection<? extends E> others) {
        this();
        addAll(others);
    }

    public int size() {
        return size;
    }

    private Node node(int index) {
        if (index < 0 || index >= size) {
            throw new IndexOutOfBoundsException("Index: " + index + ", Size: " + size);
        }
        Node node = ends.behind;
        for (int at = 0; at < index; at++) {
            node = node.behind;
        }
        return node;
    }

    private void insert(Object element, Node behind) {
        Node node = new Node();
        node.element = element;
        node.behind = behind;
        node.before = behind.before;
        node.before.behind = node;
        behind.before = node;
        size++;
        modCount++;
    }

    @SuppressWarnings("unchecked")
    private E unlink(Node node) {
        node.before.behind = node.behind;
        node.behind.before = node.before;
        size--;
        modCount++;
        return (E) node.element;
    }

    private Node present(Node node) {
        if (node == ends) {
            throw new NoSuchElementException();
        }
        return node;
    }

    @SuppressWarnings("unchecked")
    public E get(int index) {
        return (E) node(index).element;
    }

    @SuppressWarnings("unchecked")
    public E set(int index, E element) {
        Node node = node(index);
        E old = (E) node.element;
        node.element = element;
        return old;
    }

    public boolean add(E element) {
        insert(element, ends);
        return true;
    }

    public void add(int index, E element) {
        insert(element, index == size ? ends : node(index));
    }

    public E remove(int index) {
        return unlink(node(index));
    }

    public void clear() {
        ends.before = ends;
        ends.behind = ends;
        size = 0;
        modCount++;
    }

    public void addFirst(E element) {
        insert(element, ends.behind);
    }

    public void addLast(E element) {
        insert(element, ends);
    }

    public boolean offer(E element) {
        return add(element);
    }

    public boolean offerFirst(E element) {
        addFirst(element);
        return true;
    }

    public boolean offerLast(E element) {
        return add(element);
    }

    public void push(E element) {
        addFirst(element);
    }

    public E removeFirst() {
        return unlink(present(ends.behind));
    }

    public E removeLast() {
        return unlink(present(ends.before));
    }

    public E remove() {
        return removeFirst();
    }

    public E pop() {
        return removeFirst();
    }

    public E pollFirst() {
        return size == 0 ? null : unlink(ends.behind);
    }

    public E pollLast() {
        return size == 0 ? null : unlink(ends.before);
    }

    public E poll() {
        return pollFirst();
    }

    @SuppressWarnings("unchecked")
    public E getFirst() {
        return (E) present(ends.behind).element;
    }

    @SuppressWarnings("unchecked")
    public E getLast() {
        return (E) present(ends.before).element;
    }

    public E element() {
        return getFirst();
    }

    @SuppressWarnings("unchecked")
    public E peekFirst() {
        return (E) ends.behind.element;
    }

    @SuppressWarnings("unchecked")
    public E peekLast() {
        return (E) ends.before.element;
    }

    public E peek() {
        return peekFirst();
    }

    public boolean removeFirstOccurrence(Object element) {
        return remove(element);
    }

    public boolean removeLastOccurrence(Object element) {
        int at = lastIndexOf(element);
        if (at < 0) {
            return false;
        }
        remove(at);
        return true;
    }

    public int indexOf(Object element) {
        int at = 0;
        for (Node node = ends.behind; node != ends; node = node.behind) {
            if (Objects.equals(element, node.element)) {
                return at;
            }
            at++;
        }
        return -1;
    }

    public Iterator<E> descendingIterator() {
        return new Backward<E>(listIterator(size));
    }

    static final class Backward<E> implements Iterator<E> {
        private final ListIterator<E> each;

        Backward(ListIterator<E> each) {
            this.each = each;
        }

        public boolean hasNext() {
            return each.hasPrevious();
        }

        public E next() {
            return each.previous();
        }

        public void remove() {
            each.remove();
        }
    }
}
