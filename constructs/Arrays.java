/*
 * Types and operators: arrays of any type that works, and their `length`
 *
 * It works.
 */
class Arrays {
    public static void main(String[] words) {
        int[] numbers = {3, 1, 2};
        boolean[] are = new boolean[numbers.length];
        String[] texts = {"one", null};
        are[numbers[1]] = texts[0] != null;
        System.out.println(words.length);
    }
}
