/*
 * Strings and output: `StringBuilder`
 *
 * It works.
 */
class Builders {
    public static void main(String[] words) {
        StringBuilder builder = new StringBuilder();
        for (int number = 0; number < 3; number++) {
            builder.append(number).append(", ");
        }
        builder.setLength(builder.length() - 2);
        builder.insert(0, '[').append(']').setCharAt(1, '-');
        CharSequence turned = new StringBuilder("321").reverse();
        System.out.println(builder.append(turned).append(false).toString());
        System.out.println(builder.indexOf("2") + builder.substring(3, 5) + builder.charAt(0));
    }
}
