/*
 * Types and operators: `float`
 *
 * FloatType.java:10: the method float half(int): take int, as cents for a price
 * FloatType.java:10: float: take int, as cents for a price
 * FloatType.java:14: FloatType.half(int): take int, as cents for a price
 */
class FloatType {
    static float half(int number) {
        return number / 2f;
    }

    public static void main(String[] words) {
        System.out.println((int) half(7));
    }
}
