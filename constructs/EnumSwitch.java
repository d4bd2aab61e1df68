/*
 * Classes and interfaces: `switch` on an enum
 *
 * EnumSwitch.java:15: Light.ordinal(), of an enum: write a final class, with a static final object for each constant
 * EnumSwitch.java:15: the class java.lang.NoSuchFieldError, of a switch on an enum: write if and else if, and
 *     compare by ==
 * EnumSwitch.java:9: the enum Light: write a final class, with a static final object for each constant
 */
enum Light {
    RED, GREEN
}

class EnumSwitch {
    static int seconds(Light light) {
        switch (light) {
            case RED:
                return 30;
            default:
                return 20;
        }
    }

    public static void main(String[] words) {
        System.out.println(seconds(Light.RED));
    }
}
