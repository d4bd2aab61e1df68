/** The words of two threads stand in any order, a word in one piece. Races. */
class TwoVoices extends Thread {
    final String name;

    TwoVoices(String name) {
        this.name = name;
    }

    public void run() {
        System.out.print(name);
        System.out.println(" speaks");
    }

    public static void main(String[] args) {
        new TwoVoices("one").start();
        new TwoVoices("\u00e9 ").start();
    }
}
