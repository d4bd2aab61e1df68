package java.io;

/** For a file that isn't there. Nothing here throws it by itself. */
public class FileNotFoundException extends IOException {
    public FileNotFoundException() {
    }

    public FileNotFoundException(String message) {
        super(message);
    }
}
