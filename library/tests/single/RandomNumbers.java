import java.util.Random;

/**
 * The numbers of `new Random(0)`, which are those of `new Random()` here; the .expected is that of `java` with the
 * seed 0.
 */
class RandomNumbers {
    public static void main(String[] args) {
        Random random = new Random();
        for (int at = 0; at < 20; at++) {
            System.out.println(random.nextInt());
        }
        int[] bounds = {1, 2, 3, 10, 16, 100, 1 << 30, 1000000007, 2147483647};
        for (int bound : bounds) {
            for (int at = 0; at < 8; at++) {
                System.out.println(random.nextInt(bound));
            }
        }
        for (int at = 0; at < 20; at++) {
            System.out.println(random.nextBoolean() ? 1 : 0);
        }
    }
}
