/** Byte, Short, and what Boolean has of texts. */
class BytesAndShorts {
    static void bytes(String text) {
        try {
            System.out.println(Byte.parseByte(text));
        } catch (NumberFormatException failed) {
            System.out.println(failed.getMessage());
        }
    }

    static void shorts(String text) {
        try {
            System.out.println(Short.decode(text));
        } catch (NumberFormatException failed) {
            System.out.println(failed.getMessage());
        }
    }

    public static void main(String[] args) {
        Byte small = 12;
        Byte same = 12;
        System.out.println(small == same);
        System.out.println(small + " " + small.hashCode() + " " + small.intValue() + " " + small.compareTo((byte) 3));
        bytes("-128");
        bytes("128");
        bytes("x");
        System.out.println(Byte.toString((byte) -7) + Byte.toUnsignedInt((byte) -7) + Byte.valueOf("7"));
        System.out.println(Byte.compare((byte) 1, (byte) 9) + " " + small.equals(12) + " " + small.equals((byte) 12));
        Short wide = 1000;
        System.out.println(wide + " " + wide.hashCode() + " " + wide.byteValue() + " " + wide.equals((short) 1000));
        shorts("0x7fff");
        shorts("0x8000");
        shorts("-0x8000");
        System.out.println(Short.reverseBytes((short) 0x1234) + " " + Short.toUnsignedInt((short) -1));
        try {
            Short.parseShort("70000", 10);
        } catch (NumberFormatException failed) {
            System.out.println(failed);
        }
        Number number = wide;
        System.out.println(number.shortValue() + number.intValue());
        String[] texts = {"true", "TRUE", "tRuE", "yes", "tru", "", null};
        for (String text : texts) {
            System.out.println(Boolean.parseBoolean(text));
        }
        System.out.println(Boolean.valueOf("True") == Boolean.TRUE);
        System.out.println(Boolean.toString(false) + Boolean.TRUE + new Boolean("true").hashCode());
    }
}
