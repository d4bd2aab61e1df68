// accepted
/** A switch over texts asks for their hash codes. */
final class SwitchesText {
    public static void main(String[] args) {
        switch (args[0]) {
            case "a":
                break;
            default:
        }
    }
}
