/** getChars writes two elements, and another thread reads one and writes the others. Races: [1] of char[] #. */
class CharsInto extends Thread {
    static final char[] into = new char[4];

    public void run() {
        into[0] = 'a';
        into[3] = into[1];
    }

    public static void main(String[] args) {
        new CharsInto().start();
        "bcde".getChars(2, 4, into, 1);
    }
}
