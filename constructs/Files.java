/*
 * The library: files
 *
 * Files.java:12: the class java.io.FileReader: there are no files and no streams; leave it out
 * Files.java:13: the class java.io.FileReader: there are no files and no streams; leave it out
 */
import java.io.FileReader;
import java.io.IOException;

class Files {
    public static void main(String[] words) throws IOException {
        FileReader reader = new FileReader("words");
        System.out.println(reader.read());
    }
}
