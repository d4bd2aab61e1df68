/** Two threads add to one StringBuilder with no lock. Races: java/lang/StringBuilder.text. */
class OneBuilder extends Thread {
    static final StringBuilder text = new StringBuilder();

    public void run() {
        text.append('a');
    }

    public static void main(String[] args) throws InterruptedException {
        Thread first = new OneBuilder();
        first.start();
        text.append("b");
        first.join();
        System.out.println(text.toString());
    }
}
