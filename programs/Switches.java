/** switch by table and by search, with a fall through and without a default. */
class Switches {
    static int dense(int n) {
        switch (n) {
            case -1:
                return 9;
            case 0:
                n += 100;
            case 1:
                n += 1000;
                break;
            case 3:
                return 3;
        }
        return n;
    }

    static int sparse(int n) {
        switch (n) {
            case -2147483648:
                return 1;
            case 0:
                return 2;
            case 1000000:
                return 3;
            case 2147483647:
                return 4;
            default:
                return 5;
        }
    }

    public static void main(String[] args) {
        for (int i = -2; i < 5; i++) {
            System.out.println(dense(i));
        }
        int[] numbers = {-2147483648, -2147483647, 0, 1000000, 1000001, 2147483647};
        for (int number : numbers) {
            System.out.println(sparse(number));
        }
    }
}
