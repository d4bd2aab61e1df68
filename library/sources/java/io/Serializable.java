package java.io;

/** A mark. Nothing is serialised here. */
public interface Serializable {
}
