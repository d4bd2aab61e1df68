package java.util;

/**
 * The numbers of Java's generator of 48 bits, which begins as `new Random(0)` does, each time.
 *
 * The state is kept in two ints, the upper 32 bits and the lower 16; each number is drawn under the lock of this
 * object. Left out: a seed (a long), `nextLong`, `nextFloat`, `nextDouble`, `nextGaussian`, streams.
 */
public class Random implements java.io.Serializable {
    /** The bits 47 to 16, and 15 to 0, of the seed 0 as it is scrambled. */
    private int high = 0x0005deec;
    private int low = 0xe66d;

    public Random() {
    }

    /** So many bits, the highest of the next state. */
    protected synchronized int next(int bits) {
        int product = low * 0xe66d;
        int sum = (product & 0xffff) + 0xb;
        high = high * 0xdeece66d + low * 0x5deec + (product >>> 16) + (sum >>> 16);
        low = sum & 0xffff;
        return high >>> 32 - bits;
    }

    public int nextInt() {
        return next(32);
    }

    public int nextInt(int bound) {
        if (bound <= 0) {
            throw new IllegalArgumentException("bound must be positive");
        }
        int bits = next(31);
        if ((bound & -bound) == bound) {
            int shift = 0;
            for (int left = bound; left > 1; left >>= 1) {
                shift++;
            }
            return bits >>> 31 - shift;
        }
        int value = bits % bound;
        while (bits - value + (bound - 1) < 0) {
            bits = next(31);
            value = bits % bound;
        }
        return value;
    }

    public boolean nextBoolean() {
        return next(1) != 0;
    }
}
