/** Two threads make the constants of two enums: each is found by its name. */
class EnumsBoth {
    enum Left {
        ONE
    }

    enum Right {
        ONE
    }

    public static void main(String[] args) throws Exception {
        Thread other = new Thread() {
            public void run() {
                Right.ONE.ordinal();
            }
        };
        other.start();
        Left.ONE.ordinal();
        other.join();
        System.out.println(Left.valueOf("ONE") == Left.ONE ? 1 : 0);
        System.out.println(Right.valueOf("ONE") == Right.ONE ? 1 : 0);
    }
}
