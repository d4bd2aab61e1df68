/** A String is asked a few things, each of which a trace tells in another way; at last one that is null. */
class Asked {
    public static void main(String[] args) {
        String word = "ab".concat("c");
        word = word.concat("");
        word.substring(0, 3);
        word.substring(1, 2);
        word.length();
        word.charAt(1);
        word.equals("abc");
        word.indexOf(100, 0);
        String.valueOf(7);
        String.valueOf('a');
        try {
            word.charAt(3);
        } catch (StringIndexOutOfBoundsException outside) {
            word = null;
        }
        word.length();
    }
}
