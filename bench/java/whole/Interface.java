/** Calls by an interface that two classes implement. */
public class Interface {
    interface Step {
        int next(int value);
    }

    static class Adds implements Step {
        public int next(int value) {
            return value + 7;
        }
    }

    static class Mixes implements Step {
        public int next(int value) {
            return value ^ value << 3;
        }
    }

    public static void main(String[] words) {
        Step adds = new Adds();
        Step mixes = new Mixes();
        int value = 1;
        for (int i = 0; i < 800000; i++) {
            value = mixes.next(adds.next(value));
        }
        System.out.println(value);
    }
}
