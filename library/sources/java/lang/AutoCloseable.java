package java.lang;

/** What is closed behind its use. */
public interface AutoCloseable {
    void close() throws Exception;
}
