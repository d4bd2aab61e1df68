/** The members of StringBuilder by which a text is changed and looked into, and the indices that they refuse. */
class Edited {
    static final int LEAST = -2147483648;
    static final int MOST = 2147483647;

    static void changes() {
        StringBuilder text = new StringBuilder("abcdef");
        text.insert(0, 12).insert(8, true).insert(2, '-').insert(3, "null".substring(1)).insert(1, (String) null);
        System.out.println(text.toString());
        text.delete(0, 5).deleteCharAt(0).setCharAt(0, '+');
        System.out.println(text.replace(1, 4, "URL").replace(9, 99, "end").toString());
        text.setLength(4);
        System.out.println(text.toString() + "|" + text.length());
    }

    static void looks() {
        StringBuilder text = new StringBuilder("banana");
        System.out.println(text.indexOf("an") + " " + text.indexOf("an", 2) + " " + text.indexOf("x"));
        System.out.println(text.lastIndexOf("an") + " " + text.lastIndexOf("an", 2) + " " + text.lastIndexOf(""));
        System.out.println(text.substring(4) + text.substring(0, 2) + text.subSequence(2, 4).toString());
        System.out.println(text.charAt(5) + text.reverse().toString() + text.charAt(0));
        System.out.println(new StringBuilder("a\ud83d\ude00b\ude00\ud83d").reverse().toString());
        text.setLength(0);
        text.append("x").setLength(3);
        System.out.println(text.charAt(2) == '\0' && text.length() == 3);
    }

    static void refused(int call, int begin, int end) {
        StringBuilder text = new StringBuilder("text");
        try {
            switch (call) {
                case 0:
                    text.charAt(begin);
                    break;
                case 1:
                    text.setCharAt(begin, 'x');
                    break;
                case 2:
                    text.deleteCharAt(begin);
                    break;
                case 3:
                    text.delete(begin, end);
                    break;
                case 4:
                    text.replace(begin, end, "x");
                    break;
                case 5:
                    text.insert(begin, end);
                    break;
                case 6:
                    text.substring(begin, end);
                    break;
                case 7:
                    text.setLength(begin < 4 ? begin : 3);
                    break;
                default:
                    text.append("long text", begin, end);
            }
            System.out.print(text.append(' ').toString());
        } catch (StringIndexOutOfBoundsException outside) {
            System.out.print("outside ");
        } catch (IndexOutOfBoundsException outside) {
            System.out.print("beyond ");
        }
    }

    public static void main(String[] args) {
        changes();
        looks();
        for (int call = 0; call <= 8; call++) {
            refused(call, -1, 1);
            refused(call, 4, 5);
            refused(call, 5, 5);
            refused(call, 2, 1);
            refused(call, MOST, LEAST);
            System.out.println();
        }
    }
}
