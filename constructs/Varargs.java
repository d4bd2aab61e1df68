/*
 * Types and operators: methods with any number of arguments
 *
 * It works.
 */
class Varargs {
    static int sum(int... numbers) {
        int sum = 0;
        for (int number : numbers) {
            sum += number;
        }
        return sum;
    }

    public static void main(String[] words) {
        System.out.println(sum() + sum(1, 2, 4));
    }
}
