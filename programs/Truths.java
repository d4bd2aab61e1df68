/** Booleans that are printed, made Strings of and appended, by values, fields, elements and comparisons. */
class Truths {
    static boolean field;
    static final boolean[] ELEMENTS = new boolean[2];

    static boolean not(boolean value) {
        System.out.print(value);
        System.out.print(' ');
        return !value;
    }

    public static void main(String[] args) {
        ELEMENTS[1] = true;
        System.out.println(field);
        System.out.println(ELEMENTS[1]);
        System.out.println(not(false) & not(true) | not(field ^ true));
        System.out.println(not(args.length > 0) && not(true) || not(false));
        System.out.println(String.valueOf(true).concat(String.valueOf(field)));
        System.out.println("" + (args == null) + (args instanceof String[]) + true);
        System.out.println(new StringBuilder().append(true).insert(2, false).length());
        System.out.println(String.valueOf(true).equals("true"));
        System.out.print(String.valueOf(ELEMENTS[0]).charAt(4) == 'e');
        System.out.println();
    }
}
