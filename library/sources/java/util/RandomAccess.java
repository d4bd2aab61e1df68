package java.util;

/** A mark of lists whose elements are had by their index at once. */
public interface RandomAccess {
}
