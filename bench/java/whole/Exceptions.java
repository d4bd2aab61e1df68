/** Exceptions that are made, thrown through two methods, and caught. */
public class Exceptions {
    static class Odd extends RuntimeException {
        final int value;

        Odd(int value) {
            this.value = value;
        }
    }

    static int even(int value) {
        if ((value & 1) != 0) {
            throw new Odd(value);
        }
        return value;
    }

    static int twice(int value) {
        return even(value) + even(value + 2);
    }

    public static void main(String[] words) {
        int sum = 0;
        for (int i = 0; i < 300000; i++) {
            try {
                sum += twice(i);
            } catch (Odd odd) {
                sum -= odd.value;
            }
        }
        System.out.println(sum);
    }
}
