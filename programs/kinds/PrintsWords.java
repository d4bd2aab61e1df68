/** Two threads print words, of which some are ints: these come first. No kind. */
class PrintsWords extends Thread {
    public void run() {
        System.out.print("1");
        System.out.println("0");
    }

    public static void main(String[] args) {
        new PrintsWords().start();
        System.out.println("two");
    }
}
