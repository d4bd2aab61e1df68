/** A thread adds to a text that another one asks for. Races: java/lang/StringBuilder.text. */
class AsksWhatGrows extends Thread {
    static final StringBuilder GROWS = new StringBuilder("a");

    public void run() {
        GROWS.append('b');
    }

    public static void main(String[] args) {
        new AsksWhatGrows().start();
        System.out.println(GROWS.toString());
    }
}
