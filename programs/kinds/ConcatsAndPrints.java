/** Two threads make words and print them: the same words are one outcome, whichever thread made them first. No kind. */
class ConcatsAndPrints extends Thread {
    static void say(String word) {
        System.out.println(word.concat("!"));
    }

    public void run() {
        say("one");
    }

    public static void main(String[] args) {
        new ConcatsAndPrints().start();
        say("o".concat("ne"));
    }
}
