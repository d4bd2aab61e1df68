/*
 * Strings and output: `toString` of an object
 *
 * It works.
 */
class ToString {
    public String toString() {
        return "seven";
    }

    public static void main(String[] words) {
        Object object = new ToString();
        System.out.println(object.toString());
        System.out.println(object);
    }
}
