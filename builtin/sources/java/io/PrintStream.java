package java.io;

/** A stream that prints. */
public class PrintStream {
    private PrintStream() {}

    public native void println();

    public native void println(char unit);

    public native void println(int number);

    public native void println(String text);

    public native void print(char unit);

    public native void print(int number);

    public native void print(String text);

    public void println(boolean value) {
        println(String.valueOf(value));
    }

    public void println(char[] units) {
        println(String.valueOf(units));
    }

    public void println(Object object) {
        println(String.valueOf(object));
    }

    public void print(boolean value) {
        print(String.valueOf(value));
    }

    public void print(char[] units) {
        print(String.valueOf(units));
    }

    public void print(Object object) {
        print(String.valueOf(object));
    }

    /** What is printed stands in the text at once. */
    public void flush() {}
}
