/*
 * Types and operators: `Name.class` of a class
 *
 * It works.
 */
class ClassLiteral {
    public static void main(String[] words) {
        synchronized (ClassLiteral.class) {
            System.out.println(7);
        }
    }
}
