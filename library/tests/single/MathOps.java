/** Math. */
class MathOps {
    static void print(int number) {
        System.out.println(number);
    }

    static void print(boolean is) {
        System.out.println(is ? 1 : 0);
    }

    public static void main(String[] args) throws Exception {
        int[] numbers = {0, 1, -1, 7, -7, 46341, 0x80000000, 0x7fffffff};
        for (int a : numbers) {
            print(Math.abs(a));
            for (int b : numbers) {
                print(Math.max(a, b));
                print(Math.min(a, b));
                if (b != 0) {
                    print(Math.floorDiv(a, b));
                    print(Math.floorMod(a, b));
                }
                try {
                    print(Math.addExact(a, b));
                } catch (ArithmeticException over) {
                    print(-100);
                }
                try {
                    print(Math.subtractExact(a, b));
                } catch (ArithmeticException over) {
                    print(-101);
                }
                try {
                    print(Math.multiplyExact(a, b));
                } catch (ArithmeticException over) {
                    print(-102);
                }
            }
            try {
                print(Math.negateExact(a));
                print(Math.incrementExact(a));
            } catch (ArithmeticException over) {
                print(-103);
            }
            try {
                print(Math.decrementExact(a));
            } catch (ArithmeticException over) {
                print(-104);
            }
        }
    }
}
