/** The order of static initialisers: superclass first, a constant needs none, an interface comes with its field. */
class Initialisers {
    static int shown(int n) {
        System.out.println(n);
        return n;
    }

    interface Constants {
        int EASY = 7;
        int HARD = shown(100);
        int OTHER = shown(101);
    }

    static class Base {
        static int value = shown(1);
        int own = shown(2);

        Base() {
            shown(3);
        }
    }

    static class Derived extends Base implements Constants {
        static final int NUMBER = 5;
        static int more = shown(4);
        int own = shown(6);

        Derived() {
            shown(own);
        }
    }

    static {
        shown(0);
    }

    public static void main(String[] args) {
        shown(Derived.NUMBER);
        shown(Derived.EASY);
        Derived[] none = new Derived[2];
        shown(none.length);
        none[1] = new Derived();
        shown(Derived.HARD);
        shown(new Derived().own);
    }
}
