package java.util.concurrent;

import java.util.Collection;

/**
 * A blocking queue of nodes, first in, first out, with room for so many elements, or for all.
 *
 * It waits and wakes as a MonitorQueue does, with one lock for both ends. Left out: times.
 */
public class LinkedBlockingQueue<E> extends MonitorQueue<E> {
    static final class Node {
        final Object element;
        Node next;

        Node(Object element) {
            this.element = element;
        }
    }

    private Node first;
    private Node last;

    public LinkedBlockingQueue() {
        super(0x7fffffff);
    }

    public LinkedBlockingQueue(int capacity) {
        super(capacity);
    }

    public LinkedBlockingQueue(Collection<? extends E> others) {
        this();
        addAll(others);
    }

    void enter(E element) {
        Node node = new Node(element);
        if (first == null) {
            first = node;
        } else {
            last.next = node;
        }
        last = node;
    }

    @SuppressWarnings("unchecked")
    E leave() {
        Node node = first;
        first = node.next;
        return (E) node.element;
    }

    private Node node(int index) {
        Node node = first;
        for (int at = 0; at < index; at++) {
            node = node.next;
        }
        return node;
    }

    @SuppressWarnings("unchecked")
    E at(int index) {
        return (E) node(index).element;
    }

    void removeAt(int index) {
        if (index == 0) {
            first = first.next;
            return;
        }
        Node before = node(index - 1);
        if (before.next == last) {
            last = before;
        }
        before.next = before.next.next;
    }
}
