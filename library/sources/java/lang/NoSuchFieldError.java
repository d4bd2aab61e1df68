package java.lang;

/** What a switch over an enum catches, as javac makes it. Nothing here throws it by itself. */
public class NoSuchFieldError extends IncompatibleClassChangeError {
    public NoSuchFieldError() {
    }

    public NoSuchFieldError(String message) {
        super(message);
    }
}
