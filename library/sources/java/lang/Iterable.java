package java.lang;

import java.util.Iterator;

/** What a `for` over objects goes through. Left out: `forEach`, `spliterator`. */
public interface Iterable<T> {
    Iterator<T> iterator();
}
