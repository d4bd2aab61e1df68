/** Numbers made by chance are sorted by recursion. */
public class Quicksort {
    static void sort(int[] numbers, int from, int to) {
        int low = from;
        int high = to;
        int pivot = numbers[(from + to) / 2];
        while (low <= high) {
            while (numbers[low] < pivot) {
                low++;
            }
            while (numbers[high] > pivot) {
                high--;
            }
            if (low <= high) {
                int kept = numbers[low];
                numbers[low++] = numbers[high];
                numbers[high--] = kept;
            }
        }
        if (from < high) {
            sort(numbers, from, high);
        }
        if (low < to) {
            sort(numbers, low, to);
        }
    }

    public static void main(String[] words) {
        int[] numbers = new int[10000];
        int seed = 1;
        for (int i = 0; i < numbers.length; i++) {
            seed = seed * 1103515245 + 12345;
            numbers[i] = seed >>> 8;
        }
        sort(numbers, 0, numbers.length - 1);
        int sum = 0;
        for (int i = 0; i < numbers.length; i++) {
            sum = sum * 31 + numbers[i];
        }
        System.out.println(sum);
    }
}
