/*
 * Methods that every object has: `equals` and `hashCode` of a class that declares them
 *
 * It works.
 */
class EqualsAndHashCode {
    int number = 7;

    public boolean equals(Object other) {
        return other instanceof EqualsAndHashCode && ((EqualsAndHashCode) other).number == number;
    }

    public int hashCode() {
        return number;
    }

    public static void main(String[] words) {
        EqualsAndHashCode one = new EqualsAndHashCode();
        System.out.println(one.equals(new EqualsAndHashCode()) ? one.hashCode() : 0);
    }
}
