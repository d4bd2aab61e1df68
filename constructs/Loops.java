/*
 * Statements: `if`, `while`, `do`, `for`, `break` and `continue`, with labels too
 *
 * It works.
 */
class Loops {
    public static void main(String[] words) {
        int found = 0;
        rows:
        for (int row = 0; row < 5; row++) {
            int column = 0;
            while (true) {
                if (row * column > 6) {
                    break rows;
                }
                if (++column > 3) {
                    continue rows;
                }
                found++;
            }
        }
        do {
            System.out.println(found);
        } while (found-- > 7);
    }
}
