/** A StringBuilder is made, added to and asked; and both streams print. */
class Told {
    public static void main(String[] args) {
        StringBuilder text = new StringBuilder("a\"b");
        text.append(7).append((StringBuilder) null);
        String word = text.toString();
        System.err.println(word + '\n');
        System.err.print(word.length() == 8);
        System.out.println(word = word + word + word + word + word + word);
    }
}
