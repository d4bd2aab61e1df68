/*
 * The library: `System.in`
 *
 * SystemIn.java:11: java.lang.System.in: nothing is read in a run; write the input into the program
 * SystemIn.java:11: the class java.io.InputStream: there are no files and no streams; leave it out
 * SystemIn.java:12: the class java.util.Scanner: nothing is read in a run; write the input into the program
 * SystemIn.java:12: java.lang.System.in: nothing is read in a run; write the input into the program
 */
class SystemIn {
    public static void main(String[] words) throws Exception {
        System.out.println(System.in.read());
        java.util.Scanner scanner = new java.util.Scanner(System.in);
    }
}
