/*
 * Strings and output: other methods and constructors of `String`
 *
 * OtherStringMethods.java:13: new java.lang.String(byte[]): take a StringBuilder
 * OtherStringMethods.java:14: java.lang.String.split(java.lang.String): write it by charAt, substring and concat
 * OtherStringMethods.java:15: the class java.lang.Integer, of boxing, or of a method of it: take int, char or boolean,
 *     or a class of your own
 * OtherStringMethods.java:15: java.lang.String.format(java.lang.String, java.lang.Object[]): write it by charAt,
 *     substring and concat
 */
class OtherStringMethods {
    public static void main(String[] words) {
        String word = new String(new byte[] {'7'});
        System.out.println(word.split("7").length);
        String other = String.format("%d", 7);
    }
}
