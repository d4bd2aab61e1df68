/*
 * Classes and interfaces: annotations such as `@Override`, which leave no trace or one that nobody reads
 *
 * It works.
 */
class Annotations implements Runnable {
    @Override
    @Deprecated
    public void run() {
        System.out.println(7);
    }

    @SuppressWarnings("deprecation")
    public static void main(String[] words) {
        new Annotations().run();
    }
}
