package java.util;

/**
 * A HashMap that goes through its entries in the order in which their keys were first put in. Left out: the order
 * of access.
 */
public class LinkedHashMap<K, V> extends HashMap<K, V> {
    private HashMap.Node<K, V> first;
    private HashMap.Node<K, V> last;

    public LinkedHashMap() {
    }

    public LinkedHashMap(int capacity) {
        super(capacity);
    }

    public LinkedHashMap(Map<? extends K, ? extends V> others) {
        putAll(others);
    }

    void linked(HashMap.Node<K, V> node) {
        node.before = last;
        if (last == null) {
            first = node;
        } else {
            last.behind = node;
        }
        last = node;
        if (removeEldestEntry(first)) {
            remove(first.key);
        }
    }

    /** Asked of the oldest entry when one is put in: whether it is to be removed. */
    protected boolean removeEldestEntry(Map.Entry<K, V> eldest) {
        return false;
    }

    void unlinked(HashMap.Node<K, V> node) {
        if (node.before == null) {
            first = node.behind;
        } else {
            node.before.behind = node.behind;
        }
        if (node.behind == null) {
            last = node.before;
        } else {
            node.behind.before = node.before;
        }
    }

    public void clear() {
        super.clear();
        first = null;
        last = null;
    }

    HashMap.Node<K, V> firstNode() {
        return first;
    }

    HashMap.Node<K, V> nodeBehind(HashMap.Node<K, V> node) {
        return node.behind;
    }
}
