/** Calls of a method that three classes have. */
public class Virtual {
    static class Shape {
        int area(int side) {
            return side;
        }
    }

    static class Square extends Shape {
        int area(int side) {
            return side * side;
        }
    }

    static class Half extends Shape {
        int area(int side) {
            return side >> 1;
        }
    }

    public static void main(String[] words) {
        Shape[] shapes = {new Shape(), new Square(), new Half()};
        int sum = 0;
        for (int i = 0; i < 500000; i++) {
            for (int j = 0; j < shapes.length; j++) {
                sum += shapes[j].area(i & 255);
            }
        }
        System.out.println(sum);
    }
}
