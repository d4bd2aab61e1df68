package java.util;

/** A Vector whose end is the top of a stack. */
public class Stack<E> extends Vector<E> {
    public Stack() {
    }

    public E push(E element) {
        addElement(element);
        return element;
    }

    public synchronized E pop() {
        E top = peek();
        remove(size() - 1);
        return top;
    }

    public synchronized E peek() {
        if (size() == 0) {
            throw new EmptyStackException();
        }
        return get(size() - 1);
    }

    public boolean empty() {
        return size() == 0;
    }

    /** How far below the top it stands, from 1 on; -1 where it isn't there. */
    public synchronized int search(Object element) {
        int at = lastIndexOf(element);
        return at < 0 ? -1 : size() - at;
    }
}
