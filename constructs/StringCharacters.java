/*
 * Strings and output: constructors of `String`, `toCharArray`, `getChars`, `replace`, `toUpperCase`, `join` and others,
 *     `valueOf` of a `char[]`, and `intern`
 *
 * It works.
 */
class StringCharacters {
    public static void main(String[] words) {
        String word = new String(new char[] {'7', 'a'});
        System.out.println(word.toCharArray().length);
        System.out.println(word.replace('7', '8').toUpperCase());
        System.out.println(word.equalsIgnoreCase("7A") ? 1 : 0);
        System.out.println(String.valueOf(new char[] {'7'}));
        System.out.println(String.join("-", "one", "two"));
        System.out.println(word.intern() == "7a");
        System.out.println(new char[] {'7'});
    }
}
