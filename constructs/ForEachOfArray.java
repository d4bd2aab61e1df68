/*
 * Statements: `for (T each : array)`
 *
 * It works.
 */
class ForEachOfArray {
    public static void main(String[] words) {
        for (int number : new int[] {3, 1, 2}) {
            System.out.println(number);
        }
    }
}
