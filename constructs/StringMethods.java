/*
 * Strings and output: `length`, `charAt`, `equals`, `hashCode`, `compareTo`, `concat`, `substring`, `indexOf` and
 *     `regionMatches` of a `String`, and `valueOf` of an `int`, a `char`, a `boolean` or an object
 *
 * It works.
 */
class StringMethods {
    public static void main(String[] words) {
        String word = "seven".concat(String.valueOf(7)).concat(String.valueOf('!')).concat(String.valueOf(true));
        System.out.println(String.valueOf(words == null ? words : word));
        System.out.println(word.length());
        System.out.println(word.charAt(0));
        System.out.println(word.equals("seven7!true") ? 1 : 0);
        System.out.println(word.hashCode());
        System.out.println(word.compareTo("six"));
        System.out.println(word.substring(1, 4));
        System.out.println(word.indexOf('e', 2));
        System.out.println(word.regionMatches(2, "even", 1, 3) ? 1 : 0);
    }
}
