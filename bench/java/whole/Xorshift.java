/** The generator of random numbers of Marsaglia, of 32 bits. */
public class Xorshift {
    public static void main(String[] words) {
        int state = 0x12345678;
        int ones = 0;
        for (int i = 0; i < 1500000; i++) {
            state ^= state << 13;
            state ^= state >>> 17;
            state ^= state << 5;
            ones += state & 1;
        }
        System.out.println(ones);
    }
}
