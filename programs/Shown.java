/** Objects as they are shown: by `println`, `+`, `valueOf` and a StringBuilder. */
class Shown {
    private final String name;

    Shown(String name) {
        this.name = name;
    }

    public String toString() {
        return name;
    }

    static class Longer extends Shown {
        Longer(String name) {
            super(name);
        }

        public String toString() {
            return super.toString() + "er";
        }
    }

    /** An object whose class declares no `toString` shows its class and its hash code. */
    static class Plain {
        public int hashCode() {
            return 48879;
        }
    }

    static class Negative {
        public int hashCode() {
            return -1;
        }
    }

    static class Zero {
        public int hashCode() {
            return 0;
        }
    }

    public static void main(String[] words) {
        Object none = null;
        Object[] all = {new Shown("long"), new Longer("long"), "text", none, new Plain(), new Negative(), new Zero()};
        for (Object one : all) {
            System.out.print(one);
            System.out.print(' ');
            System.out.println(one);
            System.out.println("+ " + one);
            System.out.println(String.valueOf(one).length());
        }
        StringBuilder built = new StringBuilder();
        built.append(all[1]).append(none).insert(0, all[0]).insert(4, none);
        System.out.println(built);
        CharSequence sequence = built;
        System.out.println(sequence.toString());
        Object object = new Shown(null);
        System.out.println(object);
        System.out.println("" + object + object.toString());
        System.out.println(object.hashCode() == System.identityHashCode(object));
        System.out.println(object.hashCode() == new Object().hashCode());
        System.out.println(System.identityHashCode(none));
        System.out.println(System.identityHashCode(new Plain()) == 48879);
        System.out.flush();
        System.out.print(System.lineSeparator());
    }
}
