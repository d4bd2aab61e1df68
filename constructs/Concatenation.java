/*
 * Strings and output: `+` of strings, ints, chars and booleans
 *
 * It works.
 */
class Concatenation {
    public static void main(String[] words) {
        int number = 7;
        String text = "number " + number + '!' + true;
        text += null == text ? "" : text.length() + "";
        System.out.println(text);
    }
}
