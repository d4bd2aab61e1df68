/*
 * Classes and interfaces: interfaces with abstract methods and constants
 *
 * It works.
 */
class Interfaces {
    interface Named {
        int FIRST = first();

        int number();
    }

    interface Shown extends Named {
        void show();
    }

    static class Door implements Shown {
        public int number() {
            return FIRST;
        }

        public void show() {
            System.out.println(number());
        }
    }

    static int first() {
        return 7;
    }

    public static void main(String[] words) {
        Shown shown = new Door();
        shown.show();
    }
}
