/** Strings of chars, and chars of Strings. */
class Spelled {
    static void made() {
        char[] letters = {'w', 'o', 'r', 'd'};
        String word = new String(letters);
        letters[0] = 'c';
        System.out.println(word + " " + new String(letters) + " " + new String(letters, 1, 2) + " "
                + new String(letters, 4, 0));
        System.out.println("[" + new String() + "] " + new String("as it is") + " " + (new String("a") == "a"));
        System.out.println(String.valueOf(letters) + String.valueOf(letters, 0, 1) + String.copyValueOf(letters)
                + String.copyValueOf(letters, 3, 1));
        System.out.println(letters);
        System.out.print(letters);
        System.out.println();
    }

    static void copied() {
        char[] units = "......".toCharArray();
        "letters".getChars(2, 5, units, 1);
        System.out.println(units);
        "none".getChars(1, 1, units, 6);
        StringBuilder builder = new StringBuilder("ab");
        builder.append(new char[] {'c', 'd'}).append(new char[] {'e', 'f', 'g'}, 1, 2);
        builder.insert(0, new char[] {'<'}).insert(3, new char[] {'1', '2', '3'}, 1, 1);
        builder.getChars(1, 4, units, 0);
        System.out.println(builder + " " + new String(units));
    }

    static void changed() {
        System.out.println("hello".replace('l', 'm') + " " + "hello".replace("l", "LL") + " "
                + "aaa".replace("aa", "b"));
        System.out.println("abc".replace("", "-") + " " + "".replace("", "x") + " " + "abc".replace("z", "y")
                + " " + "a.a".replace(".", ""));
        System.out.println("Hello World!".toLowerCase() + " " + "Hello World!".toUpperCase());
        System.out.println(("abc".toLowerCase() == "abc") + " " + ("ABC".toUpperCase() == "ABC") + " "
                + ("aba".replace('c', 'd') == "aba"));
        System.out.println("Hello".equalsIgnoreCase("hELLO") + " " + "abc".equalsIgnoreCase(null) + " "
                + "abc".equalsIgnoreCase("abd"));
        System.out.println("abc".compareToIgnoreCase("ABD") + " " + "abc".compareToIgnoreCase("AB") + " "
                + "[".compareToIgnoreCase("{"));
        System.out.println(String.join("-", "a", null, "b") + " [" + String.join(", ") + "] "
                + String.join("", new StringBuilder("x"), "y"));
    }

    static void interned() {
        String made = "he".concat("llo");
        System.out.println((made == "hello") + " " + (made.intern() == "hello") + " " + (made.intern() == made));
        String odd = "un".concat("heard ").concat("of");
        System.out.println((odd.intern() == odd) + " " + (new String(odd).intern() == odd));
    }

    static void fails(int which) {
        char[] units = new char[2];
        try {
            switch (which) {
                case 0:
                    new String(units, 1, 2);
                    break;
                case 1:
                    new String(units, -1, 1);
                    break;
                case 2:
                    "abc".getChars(2, 1, units, 0);
                    break;
                case 3:
                    "abc".getChars(0, 1, null, 0);
                    break;
                default:
                    new String((char[]) null);
            }
        } catch (StringIndexOutOfBoundsException outside) {
            System.out.println(which + " outside");
        } catch (NullPointerException none) {
            System.out.println(which + " null");
        }
    }

    public static void main(String[] words) {
        made();
        copied();
        changed();
        interned();
        for (int which = 0; which < 5; which++) {
            fails(which);
        }
    }
}
