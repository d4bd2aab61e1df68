package java.lang;

/** What has an order. */
public interface Comparable {
    int compareTo(Object other);
}
