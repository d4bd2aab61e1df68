/** An abstract class and an interface: calls go to the method of the object's class, super to the one above. */
abstract class Shapes {
    interface Scaled {
        int scale();
    }

    abstract int area();

    int rated() {
        return area() * 10;
    }

    static class Box extends Shapes {
        final int width, height;

        Box(int width, int height) {
            this.width = width;
            this.height = height;
        }

        int area() {
            return width * height;
        }
    }

    static class Square extends Box implements Scaled {
        Square(int side) {
            super(side, side);
        }

        int rated() {
            return super.rated() + scale();
        }

        public int scale() {
            return 3;
        }
    }

    static class Dot extends Shapes implements Scaled {
        int area() {
            return 0;
        }

        public int scale() {
            return -1;
        }
    }

    public static void main(String[] args) {
        Shapes[] all = {new Box(2, 3), new Square(4), new Dot()};
        for (Shapes one : all) {
            System.out.println(one.rated());
            if (one instanceof Scaled) {
                System.out.println(((Scaled) one).scale());
            }
        }
    }
}
