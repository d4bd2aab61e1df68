/** The primes below 65,536, by an array of ints. */
public class Sieve {
    public static void main(String[] words) {
        int[] divisors = new int[65536];
        int primes = 0;
        for (int i = 2; i < divisors.length; i++) {
            if (divisors[i] == 0) {
                primes++;
                for (int j = i + i; j < divisors.length; j += i) {
                    divisors[j] = i;
                }
            }
        }
        System.out.println(primes);
    }
}
