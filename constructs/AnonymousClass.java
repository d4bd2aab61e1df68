/*
 * Classes and interfaces: anonymous classes
 *
 * It works.
 */
class AnonymousClass {
    public static void main(String[] words) {
        final int number = 7;
        Runnable task = new Runnable() {
            public void run() {
                System.out.println(number);
            }
        };
        task.run();
    }
}
