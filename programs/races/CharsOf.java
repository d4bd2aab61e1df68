/** A String is made of two elements; another thread writes one, and those outside. Races: [2] of char[] #. */
class CharsOf extends Thread {
    static final char[] from = new char[4];

    public void run() {
        from[0] = 'a';
        from[2] = 'b';
        from[3] = 'c';
    }

    public static void main(String[] args) {
        Thread other = new CharsOf();
        other.start();
        String made = new String(from, 1, 2);
        System.out.println(made.length());
    }
}
