package java.lang;

/** An int is divided by 0 (JVMS 6.5 idiv). */
public class ArithmeticException extends RuntimeException {
    public ArithmeticException() {}

    public ArithmeticException(String message) {}
}
