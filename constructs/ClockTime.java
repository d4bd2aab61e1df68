/*
 * The library: the time
 *
 * ClockTime.java:9: java.lang.System.currentTimeMillis(): there is no clock; leave it out
 * ClockTime.java:10: java.lang.System.nanoTime(): there is no clock; leave it out
 */
class ClockTime {
    public static void main(String[] words) {
        int now = (int) System.currentTimeMillis();
        System.out.println(now - (int) System.nanoTime());
    }
}
