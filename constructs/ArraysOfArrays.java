/*
 * Types and operators: arrays of arrays, each made by itself
 *
 * It works.
 */
class ArraysOfArrays {
    public static void main(String[] words) {
        int[][] table = new int[3][];
        for (int row = 0; row < table.length; row++) {
            table[row] = new int[4];
        }
        int[][] listed = {{1, 2}, {3}};
        System.out.println(table[2].length + listed[1][0]);
    }
}
