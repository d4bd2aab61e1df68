/** Two threads append to a StringBuffer: both texts are there, each whole. */
class AppendsBoth {
    public static void main(String[] args) throws Exception {
        final StringBuffer buffer = new StringBuffer();
        Thread one = new Thread() {
            public void run() {
                buffer.append("ab");
            }
        };
        one.start();
        buffer.append("cd");
        one.join();
        System.out.println(buffer);
    }
}
