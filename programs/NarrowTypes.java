/** byte, short, char and boolean: fields, elements, parameters and casts. */
class NarrowTypes {
    static byte small = (byte) 200;
    char letter = (char) -1;
    short middle = (short) 40000;
    boolean truth = small < 0;

    static int sum(byte b, short s, char c, boolean z) {
        return b + s + c + (z ? 1 : 0);
    }

    public static void main(String[] args) {
        NarrowTypes own = new NarrowTypes();
        System.out.println(small);
        System.out.println((int) own.letter);
        System.out.println(own.middle);
        System.out.println(sum(small, own.middle, own.letter, own.truth));
        byte[] bytes = new byte[3];
        short[] shorts = {-1, 32767};
        char[] letters = {'a', '\uffff'};
        boolean[] truths = {true, false};
        bytes[0] = (byte) 127;
        bytes[0]++;
        shorts[1] += 1;
        letters[1] += 2;
        truths[1] = truths[0] ^ truths[1];
        bytes[1] |= 0x81;
        System.out.println(bytes[0] + bytes[1]);
        System.out.println(shorts[0] * shorts[1]);
        System.out.println(letters[0] + letters[1]);
        System.out.println(truths[1] ? bytes.length : 0);
        System.out.println((byte) 0x1234 >>> 4);
        System.out.println((char) (short) 0x18001 << 33);
    }
}
