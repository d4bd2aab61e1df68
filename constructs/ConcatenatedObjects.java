/*
 * Strings and output: `+` of a string and another object
 *
 * It works.
 */
class ConcatenatedObjects {
    public String toString() {
        return "seven";
    }

    public static void main(String[] words) {
        System.out.println("object " + new ConcatenatedObjects() + words);
    }
}
