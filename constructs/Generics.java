/*
 * Classes and interfaces: generic classes and methods of your own
 *
 * It works.
 */
class Generics {
    interface Measured<T> {
        int compare(T other);
    }

    static class Box<T> {
        T kept;

        <S extends T> void keep(S object) {
            kept = object;
        }
    }

    static class Size implements Measured<Size> {
        int value = 7;

        public int compare(Size other) {
            return value - other.value;
        }
    }

    public static void main(String[] words) {
        Box<Size> box = new Box<Size>();
        box.keep(new Size());
        Measured<Size> measured = box.kept;
        System.out.println(measured.compare(box.kept));
    }
}
