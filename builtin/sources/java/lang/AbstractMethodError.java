package java.lang;

/** A method is called that has no code (JVMS 6.5 invokevirtual). */
public class AbstractMethodError extends IncompatibleClassChangeError {
    public AbstractMethodError() {}

    public AbstractMethodError(String message) {}
}
