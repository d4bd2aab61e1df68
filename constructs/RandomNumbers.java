/*
 * The library: random numbers
 *
 * RandomNumbers.java:10: the class java.util.Random: reckon the numbers yourself, on ints
 */
import java.util.Random;

class RandomNumbers {
    public static void main(String[] words) {
        System.out.println(new Random().nextInt(7));
    }
}
