/** Integer, Boolean, Character. */
class IntegerOps {
    static void print(int number) {
        System.out.println(number);
    }

    static void print(boolean is) {
        System.out.println(is ? 1 : 0);
    }

    public static void main(String[] args) throws Exception {
        Integer a = 127;
        Integer b = 127;
        print(a == b);
        a = 1000;
        b = 1000;
        print(a == b);
        print(a.equals(b));
        print(a.compareTo(999));
        print(a.hashCode());
        print(a.byteValue());
        print(Integer.valueOf(70000).shortValue());
        print(Integer.MAX_VALUE);
        print(Integer.MIN_VALUE);
        int[] numbers = {0, 1, -1, 12, 0x80000000, 0x7fffffff, 0x12345678};
        for (int number : numbers) {
            print(Integer.bitCount(number));
            print(Integer.highestOneBit(number));
            print(Integer.lowestOneBit(number));
            print(Integer.numberOfLeadingZeros(number));
            print(Integer.numberOfTrailingZeros(number));
            print(Integer.reverse(number));
            print(Integer.reverseBytes(number));
            print(Integer.rotateLeft(number, 5));
            print(Integer.rotateRight(number, 5));
            print(Integer.signum(number));
            print(Integer.compareUnsigned(number, 12));
        }
        print(Integer.max(3, 4));
        print(Integer.min(3, 4));
        print(Integer.sum(3, 4));
        print(Integer.compare(3, 4));
        Boolean t = true;
        print(t == Boolean.TRUE);
        print(t.compareTo(false));
        print(t.hashCode());
        print(Boolean.FALSE.hashCode());
        print(Boolean.logicalXor(true, false));
        Character c = 'x';
        Character d = 'x';
        print(c == d);
        print(c.compareTo('a'));
        print(c.hashCode());
        print(Character.isDigit('7'));
        print(Character.isLetter('7'));
        print(Character.isUpperCase('Q'));
        print(Character.toUpperCase('q'));
        print(Character.toLowerCase('Q'));
        print(Character.digit('f', 16));
        print(Character.digit('g', 16));
        print(Character.getNumericValue('z'));
        print(Character.isWhitespace(' '));
    }
}
