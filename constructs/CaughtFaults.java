/*
 * Exceptions: what the machine throws: a null, an index, a division by 0, a cast, an array's size and store
 *
 * It works.
 */
class CaughtFaults {
    public static void main(String[] words) {
        try {
            System.out.println(1 / words.length);
        } catch (NullPointerException | ArithmeticException thrown) {
            System.out.println(7);
        }
        try {
            words[7] = "late";
        } catch (IndexOutOfBoundsException thrown) {
            System.out.println(8);
        }
    }
}
