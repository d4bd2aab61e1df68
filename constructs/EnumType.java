/*
 * Classes and interfaces: an enum
 *
 * EnumType.java:15: EnumType$Color.ordinal(), of an enum: write a final class, with a static final object for each
 *     constant
 * EnumType.java:9: the enum EnumType$Color: write a final class, with a static final object for each constant
 */
class EnumType {
    enum Color {
        RED, GREEN
    }

    public static void main(String[] words) {
        Color color = Color.RED;
        System.out.println(color.ordinal());
    }
}
