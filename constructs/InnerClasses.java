/*
 * Classes and interfaces: inner classes, which see the object around them
 *
 * It works.
 */
class InnerClasses {
    private int count;

    class Step {
        void go() {
            count++;
            InnerClasses.this.count++;
        }
    }

    public static void main(String[] words) {
        InnerClasses all = new InnerClasses();
        all.go();
        System.out.println(all.count);
    }

    void go() {
        new Step().go();
    }
}
