/** A clone, getChars and a constructor that throw read and write nothing. */
class ThrowsInCopy {
    static final char[] shared = new char[2];
    int field;

    public static void main(String[] args) {
        final ThrowsInCopy one = new ThrowsInCopy();
        new Thread() {
            public void run() {
                one.field = 1;
                shared[0] = 'a';
            }
        }.start();
        try {
            one.clone();
        } catch (CloneNotSupportedException e) {
            System.out.println(1);
        }
        try {
            "abc".getChars(0, 3, shared, 0);
        } catch (ArrayIndexOutOfBoundsException e) {
            System.out.println(2);
        }
        try {
            System.out.println(new String(shared, 0, 3));
        } catch (StringIndexOutOfBoundsException e) {
            System.out.println(3);
        }
    }
}
