package java.lang;

/** Thrown where a text has to be a number, and isn't one. */
public class NumberFormatException extends IllegalArgumentException {
    public NumberFormatException() {
    }

    public NumberFormatException(String message) {
        super(message);
    }

    /** Of a text that isn't a number, of this library's own. */
    static NumberFormatException of(String text) {
        return new NumberFormatException("For input string: \"" + text + "\"");
    }
}
