/*
 * Methods that every object has: `getClass`, and names of classes
 *
 * It works.
 */
class GetClass {
    public static void main(String[] words) {
        Object one = new Object();
        System.out.println(one.getClass().getName());
        System.out.println(GetClass.class.getSimpleName());
        System.out.println(one.getClass() == Object.class);
    }
}
