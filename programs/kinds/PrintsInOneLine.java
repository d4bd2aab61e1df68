/** Two threads print into one line: some of the lines that come of it are ints, and some are not. No kind. */
class PrintsInOneLine extends Thread {
    public void run() {
        System.out.print(7);
        System.out.println();
    }

    public static void main(String[] args) {
        new PrintsInOneLine().start();
        System.out.print('-');
        System.out.print(1);
    }
}
