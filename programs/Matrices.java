/** Arrays of arrays: rows of unequal lengths, products, and rows that are shared. */
class Matrices {
    static int[][] product(int[][] a, int[][] b) {
        int[][] c = new int[a.length][];
        for (int i = 0; i < a.length; i++) {
            c[i] = new int[b[0].length];
            for (int j = 0; j < b[0].length; j++) {
                for (int k = 0; k < b.length; k++) {
                    c[i][j] += a[i][k] * b[k][j];
                }
            }
        }
        return c;
    }

    public static void main(String[] args) {
        int[][] a = {{1, 2}, {3, 4}};
        int[][] c = product(a, a);
        System.out.println(c[0][0] - c[1][1]);
        System.out.println(c[0][1] * c[1][0]);
        int[][] steps = {{}, {1}, {2, 3}};
        int sum = 0;
        for (int[] row : steps) {
            for (int one : row) {
                sum = 10 * sum + one;
            }
        }
        System.out.println(sum);
        steps[0] = steps[2];
        steps[0][1] = 7;
        System.out.println(steps[2][1]);
        Object[] rows = steps;
        System.out.println(rows instanceof int[][] ? rows.length : 0);
        rows[1] = new byte[1];
    }
}
