/** String constants are printed: of any length and any chars, in lines or parts of lines; and null. */
class Words {
    static String none;

    static class Other {
        static String word() {
            return "word";
        }
    }

    public static void main(String[] args) {
        System.out.println("");
        System.out.print("word");
        System.out.print(' ');
        System.out.println(Other.word());
        System.out.println(Other.word() == "word" ? "one" : "two");
        System.out.println("two\nlines");
        System.out.print("a line\n");
        System.out.print("");
        System.out.println("\"\\\t\0\177|");
        System.out.println("caf\u00e9 \u20ac \uffff \ud83d\ude00");
        System.out.print("\ud83d");
        System.out.println("\ude00");
        System.out.println("\ude00\ud83d");
        System.out.print(none);
        System.out.print((char) 32);
        System.out.println(none);
        System.out.print("thread 0 ended\nevents 3\nend quiet");
    }
}
