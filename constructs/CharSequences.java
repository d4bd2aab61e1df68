/*
 * Strings and output: `CharSequence`
 *
 * It works.
 */
class CharSequences implements CharSequence {
    public int length() {
        return 7;
    }

    public char charAt(int index) {
        return '-';
    }

    public CharSequence subSequence(int begin, int end) {
        return "-------".subSequence(begin, end);
    }

    public String toString() {
        return "-------";
    }

    public static void main(String[] words) {
        CharSequence own = new CharSequences();
        System.out.println("---------".contains(own) ? own.length() : 0);
        CharSequence word = "seven";
        System.out.println(word.subSequence(1, 5).toString());
    }
}
