/** The characters of Latin-1, one after another. */
class Characters {
    static int bits(char value) {
        int made = Character.isDigit(value) ? 1 : 0;
        made += Character.isLetter(value) ? 2 : 0;
        made += Character.isLetterOrDigit(value) ? 4 : 0;
        made += Character.isUpperCase(value) ? 8 : 0;
        made += Character.isLowerCase(value) ? 16 : 0;
        made += Character.isWhitespace(value) ? 32 : 0;
        made += Character.isSpaceChar(value) ? 64 : 0;
        made += Character.isISOControl(value) ? 128 : 0;
        return made + (Character.isAlphabetic(value) ? 256 : 0);
    }

    public static void main(String[] args) {
        for (char value = 0; value < 256; value++) {
            System.out.println(bits(value) + " " + (int) Character.toUpperCase(value) + " "
                    + (int) Character.toLowerCase(value) + " " + Character.digit(value, 16) + " "
                    + Character.getNumericValue(value));
        }
        for (int digit = -1; digit < 38; digit++) {
            System.out.println((int) Character.forDigit(digit, 36));
        }
        System.out.println((int) Character.forDigit(3, 1) + " " + (int) Character.forDigit(3, 3));
        Character boxed = 'q';
        System.out.println(boxed);
        System.out.println(boxed.toString() + Character.toString('r') + boxed.equals('q') + boxed.compareTo('s'));
        System.out.println(Character.isSurrogatePair('\ud83d', '\ude00') + " " + Character.isHighSurrogate('a') + " "
                + Character.isSurrogate('\udfff') + " " + (int) Character.reverseBytes('\u1234'));
        System.out.println(Character.MAX_RADIX + Character.MIN_RADIX + Character.SIZE);
    }
}
