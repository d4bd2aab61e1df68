package java.lang;

/** A String has no unit of an index, or no such part. */
public class StringIndexOutOfBoundsException extends IndexOutOfBoundsException {
    public StringIndexOutOfBoundsException() {}

    public StringIndexOutOfBoundsException(String message) {}

    public StringIndexOutOfBoundsException(int index) {
        super("String index out of range: ".concat(String.valueOf(index)));
    }
}
