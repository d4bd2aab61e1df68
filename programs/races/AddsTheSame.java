/** Each of two threads adds one text to a StringBuilder of its own. No race. */
class AddsTheSame extends Thread {
    static final StringBuilder SAME = new StringBuilder("same");

    public void run() {
        StringBuilder own = new StringBuilder();
        own.append(SAME);
    }

    public static void main(String[] args) {
        new AddsTheSame().start();
        new AddsTheSame().start();
    }
}
