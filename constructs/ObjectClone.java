/*
 * Methods that every object has: `clone` of an object whose class implements `Cloneable`
 *
 * It works.
 */
class ObjectClone implements Cloneable {
    int number = 7;

    public static void main(String[] words) throws CloneNotSupportedException {
        ObjectClone one = new ObjectClone();
        ObjectClone other = (ObjectClone) one.clone();
        System.out.println(other.number);
        System.out.println(one == other);
    }
}
