/** Copies of parts of arrays. */
class Copies {
    static final int MOST = 2147483647;

    static void show(int[] numbers) {
        StringBuilder line = new StringBuilder();
        for (int number : numbers) {
            line.append(number).append(' ');
        }
        System.out.println(line);
    }

    static void copies(Object source, int from, Object target, int to, int count) {
        try {
            System.arraycopy(source, from, target, to, count);
            System.out.println("copied");
        } catch (IndexOutOfBoundsException thrown) {
            System.out.println("outside");
        } catch (ArrayStoreException thrown) {
            System.out.println("of another kind");
        } catch (NullPointerException thrown) {
            System.out.println("of null");
        }
    }

    public static void main(String[] words) {
        int[] numbers = {0, 1, 2, 3, 4, 5};
        System.arraycopy(numbers, 0, numbers, 1, 5);
        show(numbers);
        System.arraycopy(numbers, 2, numbers, 0, 4);
        show(numbers);
        System.arraycopy(numbers, 3, numbers, 3, 3);
        show(numbers);
        int[] others = new int[4];
        System.arraycopy(numbers, 1, others, 0, 4);
        show(others);
        char[] letters = {'a', 'b', 'c'};
        System.arraycopy(letters, 0, letters, 1, 2);
        System.out.println("" + letters[0] + letters[1] + letters[2]);
        byte[] bytes = {1, -1};
        byte[] more = new byte[3];
        System.arraycopy(bytes, 0, more, 1, 2);
        System.out.println(more[0] + more[1] * 10 + more[2] * 100);
        boolean[] truths = {true, false};
        System.arraycopy(truths, 0, truths, 1, 1);
        System.out.println(truths[1]);
        short[] shorts = {300, -300};
        System.arraycopy(shorts, 1, shorts, 0, 1);
        System.out.println(shorts[0]);
        Object[] objects = {"one", "two", new Object(), "four"};
        String[] texts = new String[4];
        copies(objects, 0, texts, 0, 2);
        copies(objects, 1, texts, 2, 2);
        System.out.println(texts[0] + texts[1] + texts[2] + texts[3]);
        copies(texts, 0, objects, 2, 2);
        System.out.println(objects[2]);
        copies(numbers, 0, others, 0, 5);
        copies(numbers, 2, others, 0, 5);
        copies(numbers, -1, others, 0, 1);
        copies(numbers, 0, others, -1, 1);
        copies(numbers, 0, others, 0, -1);
        copies(numbers, MOST, others, 0, 1);
        copies(numbers, 0, others, 1, MOST);
        copies(numbers, 6, others, 4, 0);
        copies(numbers, 7, others, 4, 0);
        copies(numbers, 0, letters, 0, 0);
        copies(letters, 0, shorts, 0, 1);
        copies(numbers, 0, texts, 0, 1);
        copies("text", 0, texts, 0, 1);
        copies(numbers, 0, "text", 0, 1);
        copies(null, 0, texts, 0, 1);
        copies(numbers, 0, null, 0, 1);
        int[][] rows = {numbers};
        copies(rows, 0, objects, 0, 1);
        System.out.println(((int[]) objects[0]).length);
    }
}
