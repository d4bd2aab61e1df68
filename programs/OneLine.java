/** Two threads print into one line, and two halves of a pair meet. Races. */
class OneLine extends Thread {
    public void run() {
        System.out.print('\ud83d');
        System.out.print(12);
        System.out.println();
    }

    public static void main(String[] args) {
        new OneLine().start();
        System.out.print('\ude00');
        System.out.print('x');
        System.out.print(-1);
    }
}
