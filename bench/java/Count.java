/** A loop of ints. */
public class Count {
    public static void main(String[] words) {
        int sum = 0;
        for (int i = 0; i < 200000; i++) {
            sum = sum * 31 + i;
        }
        System.out.println(sum);
    }
}
