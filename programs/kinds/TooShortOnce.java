/** A text is made shorter before it is looked at, or behind that. Kinds: race, uncaught. */
class TooShortOnce extends Thread {
    static String word = "ab";

    public void run() {
        word = word.substring(0, 1);
    }

    public static void main(String[] args) {
        new TooShortOnce().start();
        System.out.println(word.charAt(1));
    }
}
