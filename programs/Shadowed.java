/** Fields and static methods of one name in a class and its superclass, private methods, and overloads. */
class Shadowed {
    static class Above {
        int x = 1;

        private int secret() {
            return 10;
        }

        int ask() {
            return secret() + x;
        }

        static int fixed() {
            return 100;
        }

        int of(Object o) {
            return 1000;
        }

        int of(int n) {
            return 1001;
        }
    }

    static class Under extends Above {
        int x = 2;

        private int secret() {
            return 20;
        }

        int both() {
            return x * 10 + super.x + secret();
        }

        static int fixed() {
            return 200;
        }

        int of(Object o) {
            return super.of(o) + 5;
        }
    }

    public static void main(String[] args) {
        Under under = new Under();
        Above above = under;
        System.out.println(above.x);
        System.out.println(under.x);
        System.out.println(under.ask());
        System.out.println(under.both());
        System.out.println(Above.fixed() + Under.fixed());
        System.out.println(above.of(under));
        System.out.println(above.of(3));
    }
}
