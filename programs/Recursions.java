/** Recursion: fibonacci, Ackermann, even and odd by each other, and one without an end. */
class Recursions {
    static int fibonacci(int n) {
        return n < 2 ? n : fibonacci(n - 1) + fibonacci(n - 2);
    }

    static int ackermann(int m, int n) {
        return m == 0 ? n + 1 : n == 0 ? ackermann(m - 1, 1) : ackermann(m - 1, ackermann(m, n - 1));
    }

    static boolean isEven(int n) {
        return n == 0 || isOdd(n - 1);
    }

    static boolean isOdd(int n) {
        return n != 0 && isEven(n - 1);
    }

    static int endless(int n) {
        return endless(n + 1) + 1;
    }

    public static void main(String[] args) {
        System.out.println(fibonacci(7));
        System.out.println(ackermann(2, 2));
        System.out.println(isEven(9) ? 1 : 0);
        try {
            System.out.println(endless(0));
        } catch (StackOverflowError e) {
            System.out.println(-1);
        }
    }
}
