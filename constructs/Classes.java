/*
 * Classes and interfaces: classes: fields, constructors, overloaded and overridden methods, `this` and `super`
 *
 * It works.
 */
class Classes {
    static class Point {
        final int x;
        int y;

        Point(int x) {
            this(x, 0);
        }

        Point(int x, int y) {
            this.x = x;
            this.y = y;
        }

        int sum() {
            return x + y;
        }
    }

    static class Far extends Point {
        Far() {
            super(40);
        }

        int sum() {
            return super.sum() + 1;
        }
    }

    public static void main(String[] words) {
        Point point = new Far();
        point.y = 1;
        System.out.println(point.sum());
    }
}
