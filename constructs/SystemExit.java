/*
 * The library: `System.exit`, and hooks for the end of a run
 *
 * SystemExit.java:9: the class java.lang.Runtime: nothing outside of the run is reached; leave it out
 * SystemExit.java:10: java.lang.System.exit(int): a run ends with its threads; return from main
 */
class SystemExit {
    public static void main(String[] words) {
        Runtime.getRuntime().gc();
        System.exit(7);
    }
}
