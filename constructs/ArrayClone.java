/*
 * Types and operators: `clone` of an array
 *
 * It works.
 */
class ArrayClone {
    public static void main(String[] words) {
        int[] numbers = {3, 1, 2};
        int[] others = numbers.clone();
        System.out.println(others[0]);
        String[] copies = words.clone();
        System.out.println(copies.length);
    }
}
