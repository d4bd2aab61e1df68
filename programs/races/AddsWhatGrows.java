/** A thread adds to a text that another one adds to its own. Races: java/lang/StringBuilder.text. */
class AddsWhatGrows extends Thread {
    static final StringBuilder GROWS = new StringBuilder("a");

    public void run() {
        GROWS.append('b');
    }

    public static void main(String[] args) {
        StringBuilder own = new StringBuilder();
        new AddsWhatGrows().start();
        System.out.println(own.append(GROWS).toString());
    }
}
