/*
 * Classes and interfaces: `values()` of an enum
 *
 * EnumValues.java:6: the enum Suit: write a final class, with a static final object for each constant
 */
enum Suit {
    HEARTS, SPADES
}

class EnumValues {
    public static void main(String[] words) {
        System.out.println(Suit.values().length);
    }
}
