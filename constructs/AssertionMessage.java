/*
 * Statements: `assert` with a message
 *
 * It works.
 */
class AssertionMessage {
    public static void main(String[] words) {
        int sum = 3 + 4;
        assert sum == 7 : "sum";
        System.out.println(sum);
    }
}
