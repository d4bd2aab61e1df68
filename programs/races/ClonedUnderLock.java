/** Under one lock one thread clones an array and takes chars of it, and another one fills it. */
class ClonedUnderLock extends Thread {
    static final char[] shared = new char[2];

    public void run() {
        synchronized (shared) {
            "ab".getChars(0, 2, shared, 0);
        }
    }

    public static void main(String[] args) {
        new ClonedUnderLock().start();
        synchronized (shared) {
            char[] own = shared.clone();
            System.out.println(own.length + new String(shared, 0, 2).length());
        }
    }
}
