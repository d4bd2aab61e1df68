/*
 * Classes and interfaces: initialisers of classes and of objects
 *
 * It works.
 */
class Initialisers {
    static int first;
    int second;

    static {
        first = 3;
    }

    {
        second = 4;
    }

    public static void main(String[] words) {
        System.out.println(first + new Initialisers().second);
    }
}
