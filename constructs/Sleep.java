/*
 * Threads: `Thread.sleep`
 *
 * Sleep.java:9: java.lang.Thread.sleep(long): there is no clock, the schedule says who goes on; leave it out, or
 *     wait() to be notified
 */
class Sleep {
    public static void main(String[] words) throws InterruptedException {
        Thread.sleep(1000);
        System.out.println(7);
    }
}
