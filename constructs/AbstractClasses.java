/*
 * Classes and interfaces: abstract classes and methods
 *
 * It works.
 */
class AbstractClasses {
    abstract static class Shape {
        abstract int area();
    }

    static class Square extends Shape {
        int area() {
            return 49;
        }
    }

    public static void main(String[] words) {
        Shape shape = new Square();
        System.out.println(shape.area());
    }
}
