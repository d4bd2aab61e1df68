/** Clones of arrays and of objects. */
class Clones {
    static class Point implements Cloneable {
        int across, down;
        String name = "point";

        Point copy() {
            try {
                return (Point) clone();
            } catch (CloneNotSupportedException none) {
                return null;
            }
        }

        public String toString() {
            return name + " " + across + " " + down;
        }
    }

    static class Named extends Point {
        int[] numbers = {1, 2};
    }

    static class Plain {
        Object copy() throws CloneNotSupportedException {
            return clone();
        }
    }

    static void arrays() {
        int[] numbers = {3, 1, 2};
        int[] others = numbers.clone();
        others[0] = 9;
        System.out.println(numbers[0] + " " + others[0] + " " + others.length);
        char[] letters = "abc".toCharArray().clone();
        System.out.println(letters);
        boolean[] flags = new boolean[] {true, false}.clone();
        System.out.println(flags[0] + " " + flags[1]);
        String[][] rows = {{"a"}, {"b", "c"}};
        String[][] copies = rows.clone();
        System.out.println((copies == rows) + " " + (copies[1] == rows[1]) + " " + copies[1][1]);
        Object one = rows[1].clone();
        System.out.println(one instanceof String[] ? ((String[]) one).length : 0);
        System.out.println(new byte[0].clone().length);
    }

    public static void main(String[] words) {
        arrays();
        Point point = new Point();
        point.across = 4;
        Point other = point.copy();
        other.down = 5;
        System.out.println(point + ", " + other + ", " + (point.name == other.name));
        Named named = new Named();
        Named again = (Named) named.copy();
        again.numbers[0] = 7;
        System.out.println(named.numbers[0] + " " + again.getClass().getName());
        try {
            new Plain().copy();
        } catch (CloneNotSupportedException none) {
            System.out.println("not cloneable");
        }
        try {
            int[] missing = null;
            missing.clone();
        } catch (NullPointerException none) {
            System.out.println("null");
        }
    }
}
