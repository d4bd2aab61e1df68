/** What objects tell of their classes, and what these are called. */
class Named {
    interface Shape {
        int corners();
    }

    static class Square implements Shape {
        public int corners() {
            return 4;
        }

        public String toString() {
            return "square";
        }
    }

    static class Point implements Shape {
        public int corners() {
            return 0;
        }
    }

    static class Dot extends Point {}

    static boolean isSame(Object one, Object other) {
        return one.getClass() == other.getClass();
    }

    public static void main(String[] words) {
        class Local {}

        Shape[] shapes = {new Square(), new Point(), new Dot(), new Shape() {
            public int corners() {
                return 3;
            }
        }};
        for (Shape shape : shapes) {
            System.out.println(shape.getClass().getName() + " " + shape.corners());
        }
        System.out.println(new Local().getClass().getName());
        System.out.println(new Local().getClass().getSimpleName());
        System.out.println(Square.class.getSimpleName());
        System.out.println(String.class.getSimpleName());
        System.out.println(Named.class);
        System.out.println("text".getClass() == String.class);
        System.out.println(Square.class.getClass().getName());
        System.out.println(isSame(shapes[1], shapes[2]));
        System.out.println(isSame(shapes[1], new Point()));
        System.out.println(new RuntimeException().getClass().getName());
        System.out.println(Thread.currentThread().getClass().getName());
        try {
            shapes[0] = null;
            System.out.println(shapes[0].getClass());
        } catch (NullPointerException thrown) {
            System.out.println("of null");
        }
    }
}
