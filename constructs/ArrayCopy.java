/*
 * The library: `System.arraycopy`
 *
 * It works.
 */
class ArrayCopy {
    public static void main(String[] words) {
        int[] numbers = {3, 1, 2};
        System.arraycopy(numbers, 0, numbers, 1, 2);
        System.out.println(numbers[1]);
    }
}
