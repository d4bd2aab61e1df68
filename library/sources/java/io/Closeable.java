package java.io;

/** What is closed behind its use, once or more often. */
public interface Closeable extends AutoCloseable {
    void close() throws IOException;
}
