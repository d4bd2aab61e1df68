/*
 * The library: `java.util.function`
 *
 * FunctionTypes.java: the class java.util.function.IntUnaryOperator: write an interface of your own
 * FunctionTypes.java:16: the class java.util.function.IntUnaryOperator: write an interface of your own
 */
import java.util.function.IntUnaryOperator;

class FunctionTypes implements IntUnaryOperator {
    public int applyAsInt(int number) {
        return 2 * number;
    }

    public static void main(String[] words) {
        IntUnaryOperator twice = new FunctionTypes();
        System.out.println(twice.applyAsInt(7));
    }
}
