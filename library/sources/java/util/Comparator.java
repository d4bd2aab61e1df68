package java.util;

/**
 * An order of objects. Left out: the default and static methods. `equals` isn't declared: every object has it in
 * Java.
 */
public interface Comparator<T> {
    int compare(T a, T b);
}
