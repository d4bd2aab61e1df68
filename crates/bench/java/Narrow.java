// accepted
/** Arrays of each narrow type, texts that fields hold, and arrays of arrays. */
final class Narrow {
    static final String TITLE = "title";
    static final char LETTER = 'q';
    static final boolean IS_ON = true;
    static String text;
    private byte small = (byte) 0xff;
    private short middle = 1000;

    static boolean[] sieve(int size) {
        boolean[] out = new boolean[size];
        for (int k = 2; k < size; k++) {
            for (int j = k + k; j < size; j += k) {
                out[j] = true;
            }
        }
        return out;
    }

    static char[] letters() {
        return new char[] { 'a', 'b', LETTER };
    }

    int packed(byte[] bytes, short[] shorts) {
        int sum = small & 0xff;
        for (int k = 0; k < bytes.length; k++) {
            bytes[k] += k;
            shorts[k] = (short) (bytes[k] << 8 | bytes[k] >>> 2);
            sum ^= shorts[k];
        }
        return sum + middle;
    }

    public static void main(String[] args) {
        text = "text";
        Object title = TITLE;
        int[][] rows = new int[3][];
        rows[1] = new int[] { 1, -2, 300000 };
        boolean[] out = sieve(rows[1].length + 40);
        int primes = 0;
        for (int k = 2; k < out.length; k++) {
            primes += out[k] ? 0 : 1;
        }
        System.out.println(primes);
        System.out.println(letters()[1] + rows[1][2] % 7);
        System.out.println(new Narrow().packed(new byte[4], new short[4]));
        System.out.println(title == text ? 1 : title == "title" ? 2 : 3);
        System.out.println(args instanceof Object[] ? args.length : -1);
    }
}
