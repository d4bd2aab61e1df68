package java.lang;

/** An array of a negative length is made (JVMS 6.5 newarray). */
public class NegativeArraySizeException extends RuntimeException {
    public NegativeArraySizeException() {}

    public NegativeArraySizeException(String message) {}
}
