/*
 * Types and operators: `long`
 *
 * LongType.java: the field long total: take int
 * LongType.java: the field long LIMIT: take int
 * LongType.java:18: the method long twice(long): take int
 * LongType.java:18: long: take int
 * LongType.java:22: long: take int
 * LongType.java:23: LongType.twice(long): take int
 * LongType.java:24: LongType.total: take int
 * LongType.java:25: LongType.total: take int
 */
class LongType {
    static long total;
    static final long LIMIT = 5000000000L;

    static long twice(long amount) {
        return amount * 2;
    }

    public static void main(String[] words) {
        long[] amounts = new long[2];
        amounts[1] = twice(7);
        total += amounts[1];
        System.out.println((int) total);
    }
}
