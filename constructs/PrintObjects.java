/*
 * Strings and output: `System.out.print` and `println` of an object, and `flush`
 *
 * It works.
 */
class PrintObjects {
    public static void main(String[] words) {
        System.out.print(new Object());
        System.out.println((Object) null);
        System.out.flush();
    }
}
