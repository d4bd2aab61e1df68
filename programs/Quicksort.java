/** Recursion over an int array. */
class Quicksort {
    static void sort(int[] numbers, int from, int to) {
        if (to - from < 2) {
            return;
        }
        int pivot = numbers[from], low = from;
        for (int i = from + 1; i < to; i++) {
            if (numbers[i] < pivot) {
                numbers[low++] = numbers[i];
                numbers[i] = numbers[low];
            }
        }
        numbers[low] = pivot;
        sort(numbers, from, low);
        sort(numbers, low + 1, to);
    }

    public static void main(String[] args) {
        int[] numbers = {5, -3, 2147483647, 8, 8, -2147483648, 0, 6};
        sort(numbers, 0, numbers.length);
        for (int number : numbers) {
            System.out.println(number);
        }
    }
}
