/** No PrintStream prints: each of its methods throws, and the last one is caught by nobody. */
class NoStream {
    static java.io.PrintStream none;
    static int caught;

    static void print(int which) {
        try {
            switch (which) {
                case 0:
                    none.println();
                    break;
                case 1:
                    none.println('a');
                    break;
                case 2:
                    none.println(1);
                    break;
                case 3:
                    none.print('a');
                    break;
                default:
                    none.print(1);
            }
            System.out.println('?');
        } catch (NullPointerException e) {
            System.out.print(which);
            System.out.print(' ');
            caught++;
        }
    }

    public static void main(String[] args) {
        for (int which = 0; which < 5; which++) {
            print(which);
        }
        System.out.println(caught);
        none.print(caught);
    }
}
