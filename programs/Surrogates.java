/** Chars outside of ASCII, pairs of surrogates that two calls print, and halves without their pair. */
class Surrogates {
    public static void main(String[] args) {
        char[] units = {'\u00e9', '\u20ac', '\uffff', '\0', '\ud83d', '\ude00', '\ude00', '\ud83d', '\ud83d', '\ude00'};
        for (char unit : units) {
            System.out.print(unit);
        }
        System.out.println();
        System.out.print('\ud83d');
        System.out.println('\ude00');
        System.out.println('\ud83d');
        System.out.println('\ude00');
        System.out.print('\ud83d');
        System.out.print(7);
        System.out.println('\udfff');
    }
}
