/** An index outside of a String ends a thread, and the other one catches it by the class above. */
class TooShort extends Thread {
    final String text;

    TooShort(String text) {
        this.text = text;
    }

    public void run() {
        try {
            System.out.println(text.substring(1, 3));
        } catch (IndexOutOfBoundsException outside) {
            System.out.println("too short");
        }
        text.charAt(2);
        System.out.println("not reached");
    }

    public static void main(String[] args) throws InterruptedException {
        TooShort other = new TooShort("ab");
        other.start();
        other.join();
        System.out.println("abc".concat(String.valueOf(4)).charAt(3));
        String none = null;
        System.out.println(none.length());
    }
}
