/*
 * Statements: `assert`
 *
 * It works.
 */
class Assertion {
    public static void main(String[] words) {
        int sum = 3 + 4;
        assert sum == 7;
        System.out.println(sum);
    }
}
