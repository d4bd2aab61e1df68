/*
 * Strings and output: `isEmpty`, `startsWith`, `endsWith`, `contains`, `contentEquals`, `lastIndexOf`, `subSequence`
 *     and `trim` of a `String`, and `indexOf` of a `String`
 *
 * It works.
 */
class StringParts {
    public static void main(String[] words) {
        String word = " seven ".trim().substring(1);
        System.out.println(word.isEmpty() ? 1 : 0);
        System.out.println(word.startsWith("ev") && word.startsWith("ve", 1) ? 1 : 0);
        System.out.println(word.endsWith("en") && word.contains("ve") ? 1 : 0);
        System.out.println(word.contentEquals("even") ? 1 : 0);
        System.out.println(word.indexOf("e", 1) + word.indexOf("e") + word.indexOf('n'));
        System.out.println(word.lastIndexOf('e') + word.lastIndexOf("e", 1));
        System.out.println(word.subSequence(1, 3).toString());
    }
}
