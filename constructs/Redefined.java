/*
 * Classes and interfaces: two classes of one name, and one of the name of a built-in class
 *
 * Files: Redefined.class copy/Redefined.class
 *
 * Redefined/copy/Redefined.class: the class Redefined is declared by Redefined/Redefined.class, too: give one of the
 *     two
 */
class Redefined {
    public static void main(String[] words) {
        System.out.println(7);
    }
}
