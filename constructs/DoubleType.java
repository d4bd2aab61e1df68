/*
 * Types and operators: `double`
 *
 * DoubleType.java: the field double rate: take int, as cents for a price
 * DoubleType.java:15: double: take int, as cents for a price
 * DoubleType.java:15: DoubleType.rate: take int, as cents for a price
 * DoubleType.java:16: double: take int, as cents for a price
 * DoubleType.java:12: double: take int, as cents for a price
 * DoubleType.java:12: DoubleType.rate: take int, as cents for a price
 */
class DoubleType {
    static double rate = 0.5;

    public static void main(String[] words) {
        double amount = 7 * rate;
        System.out.println((int) amount);
    }
}
