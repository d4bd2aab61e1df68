/** What the methods of String answer that have code: empty texts, places before the first and behind the last, nulls. */
class Sought {
    static final int LEAST = -2147483648;
    static final int MOST = 2147483647;

    static void say(boolean is) {
        System.out.print(is ? "yes " : "no ");
    }

    static void say(int number) {
        System.out.print(number);
        System.out.print(' ');
    }

    static void say(String text) {
        System.out.print(text);
        System.out.print('|');
    }

    static void firstPlaces() {
        say("banana".indexOf('n'));
        say("banana".indexOf("na"));
        say("banana".indexOf("na", 3));
        say("banana".indexOf("na", 5));
        say("banana".indexOf("nab"));
        say("banana".indexOf(""));
        say("banana".indexOf("", 6));
        say("banana".indexOf("", MOST));
        say("banana".indexOf("ba", LEAST));
        say("".indexOf(""));
        say("".indexOf("a"));
        say("a".indexOf("ab"));
        System.out.println();
    }

    static void lastPlaces() {
        say("banana".lastIndexOf('n'));
        say("banana".lastIndexOf('n', 3));
        say("banana".lastIndexOf('n', 1));
        say("banana".lastIndexOf('b', 0));
        say("banana".lastIndexOf('b', -1));
        say("banana".lastIndexOf('a', MOST));
        say("".lastIndexOf('a'));
        say("banana".lastIndexOf("na"));
        say("banana".lastIndexOf("na", 3));
        say("banana".lastIndexOf("na", LEAST));
        say("banana".lastIndexOf(""));
        say("banana".lastIndexOf("", 2));
        say("".lastIndexOf("a"));
        System.out.println();
    }

    static void ends() {
        say("banana".startsWith("ba"));
        say("banana".startsWith("banana!"));
        say("banana".startsWith(""));
        say("banana".startsWith("na", 2));
        say("banana".startsWith("", 6));
        say("banana".startsWith("", 7));
        say("banana".startsWith("", -1));
        say("banana".endsWith("nana"));
        say("banana".endsWith("abanana"));
        say("banana".endsWith(""));
        say("banana".contains("nan"));
        say("banana".contains(""));
        say("banana".contains("nab"));
        say("banana".contentEquals("banana"));
        say("banana".contentEquals("Banana"));
        System.out.println();
    }

    static void parts() {
        say("".isEmpty());
        say(" ".isEmpty());
        say("banana".substring(2));
        say("banana".substring(6));
        say("banana".substring(0) == "banana");
        say("banana".subSequence(1, 3).toString());
        say("banana".toString() == "banana");
        say(" \t\n a b\0".trim());
        say("  ".trim());
        say("a b".trim() == "a b");
        System.out.println();
    }

    static void fault(int number) {
        switch (number) {
            case 0:
                "banana".substring(7);
                break;
            case 1:
                "banana".substring(-1);
                break;
            case 2:
                "banana".subSequence(3, 2);
                break;
            case 3:
                "banana".indexOf(null);
                break;
            case 4:
                "banana".contains(null);
                break;
            default:
                ((Comparable) "banana").compareTo(new Object());
        }
    }

    static void faults() {
        for (int number = 0; number < 6; number++) {
            try {
                fault(number);
                say("nothing");
            } catch (StringIndexOutOfBoundsException outside) {
                say("outside");
            } catch (NullPointerException none) {
                say("null");
            } catch (ClassCastException other) {
                say("other");
            }
        }
        System.out.println();
    }

    public static void main(String[] args) {
        firstPlaces();
        lastPlaces();
        ends();
        parts();
        faults();
    }
}
