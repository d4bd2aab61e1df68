/** Products of matrices of ints, of 80 rows. */
public class Matmul {
    static final int SIZE = 80;

    static int[][] product(int[][] left, int[][] right) {
        int[][] result = new int[SIZE][];
        for (int i = 0; i < SIZE; i++) {
            result[i] = new int[SIZE];
            for (int j = 0; j < SIZE; j++) {
                int sum = 0;
                for (int k = 0; k < SIZE; k++) {
                    sum += left[i][k] * right[k][j];
                }
                result[i][j] = sum;
            }
        }
        return result;
    }

    public static void main(String[] words) {
        int[][] matrix = new int[SIZE][];
        for (int i = 0; i < SIZE; i++) {
            matrix[i] = new int[SIZE];
            for (int j = 0; j < SIZE; j++) {
                matrix[i][j] = i * 3 - j;
            }
        }
        int[][] power = product(product(matrix, matrix), matrix);
        System.out.println(power[SIZE - 1][1]);
    }
}
