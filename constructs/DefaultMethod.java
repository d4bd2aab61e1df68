/*
 * Classes and interfaces: a default method of an interface
 *
 * DefaultMethod.java:11: the method int twice(), a default method: declare it without a body, and write it in each
 *     class
 */
interface Greeting {
    int number();

    default int twice() {
        return 2 * number();
    }
}

class DefaultMethod implements Greeting {
    public int number() {
        return 7;
    }

    public static void main(String[] words) {
        System.out.println(new DefaultMethod().twice());
    }
}
