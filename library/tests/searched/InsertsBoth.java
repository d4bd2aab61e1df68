/** Two threads insert into a StringBuffer at its begin: both texts are there, each whole. */
class InsertsBoth {
    public static void main(String[] args) throws Exception {
        final StringBuffer buffer = new StringBuffer();
        Thread one = new Thread() {
            public void run() {
                buffer.insert(0, "ab");
            }
        };
        one.start();
        buffer.insert(0, "cd");
        one.join();
        System.out.println(buffer);
    }
}
