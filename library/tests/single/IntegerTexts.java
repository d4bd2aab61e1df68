/** Integers from texts and as texts. */
class IntegerTexts {
    static void failing(String text, int radix) {
        try {
            System.out.println(Integer.parseInt(text, radix));
        } catch (NumberFormatException failed) {
            System.out.println(radix == 10 ? failed.getMessage() : "no number");
        }
    }

    static void decoded(String text) {
        try {
            System.out.println(Integer.decode(text));
        } catch (NumberFormatException failed) {
            System.out.println(text.length() > 2 ? "no number" : failed.toString());
        }
    }

    public static void main(String[] args) {
        int[] numbers = {0, 1, -1, 12, 0x80000000, 0x7fffffff, 0x12345678, -255};
        for (int number : numbers) {
            System.out.println(Integer.toString(number) + " " + Integer.toHexString(number) + " "
                    + Integer.toOctalString(number) + " " + Integer.toBinaryString(number));
            for (int radix = 1; radix < 40; radix += 6) {
                System.out.println(Integer.toString(number, radix));
            }
            System.out.println(Integer.parseInt(Integer.toString(number, 7), 7) == number);
        }
        String[] texts = {"17", "-17", "+17", "", "-", "+", "x", "1 7", " 17", "2147483647", "-2147483648", "2147483648",
            "-2147483649", "99999999999", "--1"};
        for (String text : texts) {
            failing(text, 10);
        }
        failing("ff", 16);
        failing("-7fffffff", 16);
        failing("80000000", 16);
        failing("102", 3);
        failing("zZ", 36);
        failing("1", 1);
        failing("1", 37);
        String[] coded = {"0x10", "-0X10", "#ff", "010", "0", "-0", "", "0x-1", "-#80000000", "0x80000000"};
        for (String text : coded) {
            decoded(text);
        }
        Integer boxed = Integer.valueOf("123");
        System.out.println(boxed);
        System.out.println(boxed.toString() + Integer.valueOf("11", 2));
        System.out.println(new Integer("5").equals(5));
        Object object = 1000;
        System.out.println("object " + object + ", " + object.equals(1000) + ", " + object.hashCode());
        try {
            Integer.parseInt("1a");
        } catch (IllegalArgumentException failed) {
            System.out.println(failed);
        }
    }
}
