/*
 * Methods that every object has: `equals` of `Object`
 *
 * It works.
 */
class ObjectEquals {
    public static void main(String[] words) {
        Object one = new Object();
        Object word = "seven";
        System.out.println(one.equals(one) ? 1 : 0);
        System.out.println(one.equals(word) ? 1 : 0);
        System.out.println(word.equals("seven") ? 1 : 0);
        System.out.println(words.equals(words) ? 1 : 0);
    }
}
