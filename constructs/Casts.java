/*
 * Types and operators: `instanceof`, and casts of objects
 *
 * It works.
 */
class Casts {
    public static void main(String[] words) {
        Object object = new int[] {7};
        if (object instanceof int[] && !(object instanceof String)) {
            System.out.println(((int[]) object)[0]);
        }
    }
}
