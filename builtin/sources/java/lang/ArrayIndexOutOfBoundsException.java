package java.lang;

/** An array has no element of an index (JVMS 6.5 iaload). */
public class ArrayIndexOutOfBoundsException extends IndexOutOfBoundsException {
    public ArrayIndexOutOfBoundsException() {}

    public ArrayIndexOutOfBoundsException(String message) {}

    public ArrayIndexOutOfBoundsException(int index) {
        super("Array index out of range: ".concat(String.valueOf(index)));
    }
}
