/*
 * Types and operators: `new int[3][4]`
 *
 * ManyDimensions.java:8: new int[][] of more than one size: make the outer array, and each inner one in a loop
 */
class ManyDimensions {
    public static void main(String[] words) {
        int[][] table = new int[3][4];
        System.out.println(table[2].length);
    }
}
