/** Strings that threads make are handed over in a field, locked, and kept in an array of Strings. */
class Kept extends Thread {
    static final Object LOCK = "lock".concat("ed");
    static final String[] WORDS = new String[3];
    static int count;

    final String word;

    Kept(String word) {
        this.word = word;
    }

    static void keep(String word) {
        synchronized (LOCK) {
            WORDS[count] = word;
            count++;
            LOCK.notifyAll();
        }
    }

    public void run() {
        keep(word.concat("-").concat(word));
    }

    public static void main(String[] args) throws InterruptedException {
        new Kept("a").start();
        new Kept("b").start();
        keep(String.valueOf(1));
        synchronized (LOCK) {
            while (count < WORDS.length) {
                LOCK.wait();
            }
        }
        int length = 0;
        for (String word : WORDS) {
            length += word.length();
        }
        System.out.println(length);
    }
}
