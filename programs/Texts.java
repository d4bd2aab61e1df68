/** String constants are references: equal ones are one object, they fit an Object, and they can be locked. */
class Texts extends Thread {
    static final String NAME = "name";
    static Object[] kept = {"a", "name", new Object(), NAME};
    static int count;

    static boolean isSame(Object one, Object other) {
        return one == other;
    }

    static class Elsewhere {
        static String text() {
            return "a";
        }
    }

    public void run() {
        synchronized ("lock") {
            count++;
        }
    }

    public static void main(String[] args) throws InterruptedException {
        Texts other = new Texts();
        other.start();
        synchronized ("lock") {
            count += 10;
        }
        other.join();
        System.out.println(count);
        System.out.println(isSame(kept[1], kept[3]) ? 1 : 0);
        System.out.println(isSame(kept[0], Elsewhere.text()) ? 1 : 0);
        System.out.println(isSame(kept[0], kept[1]) ? 1 : 0);
        System.out.println(kept[2] instanceof String ? 1 : 0);
        String text = (String) kept[3];
        System.out.println(text == "name" ? 1 : 0);
        Object none = kept[2];
        System.out.println((String) none == null ? 1 : 0);
    }
}
