/** The primes below 200,000, by an array of booleans, four times over. */
public class Sieve {
    static int primes(int below) {
        boolean[] composite = new boolean[below];
        int count = 0;
        for (int i = 2; i < below; i++) {
            if (!composite[i]) {
                count++;
                for (int j = i + i; j < below; j += i) {
                    composite[j] = true;
                }
            }
        }
        return count;
    }

    public static void main(String[] words) {
        int count = 0;
        for (int round = 0; round < 4; round++) {
            count += primes(200000);
        }
        System.out.println(count);
    }
}
