/** An exception, made once, that a method throws and its caller catches. */
public class Throws {
    static void thrown(RuntimeException exception) {
        throw exception;
    }

    public static void main(String[] words) {
        RuntimeException made = new RuntimeException();
        int caught = 0;
        for (int i = 0; i < 100000; i++) {
            try {
                thrown(made);
            } catch (RuntimeException exception) {
                caught++;
            }
        }
        System.out.println(caught);
    }
}
