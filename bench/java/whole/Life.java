/** The game of life on a torus of 64 by 64 cells. */
public class Life {
    static final int SIZE = 64;

    static int[] next(int[] cells) {
        int[] result = new int[SIZE * SIZE];
        for (int y = 0; y < SIZE; y++) {
            int above = (y + SIZE - 1) % SIZE * SIZE;
            int here = y * SIZE;
            int below = (y + 1) % SIZE * SIZE;
            for (int x = 0; x < SIZE; x++) {
                int left = (x + SIZE - 1) % SIZE;
                int right = (x + 1) % SIZE;
                int near = cells[above + left] + cells[above + x] + cells[above + right]
                        + cells[here + left] + cells[here + right]
                        + cells[below + left] + cells[below + x] + cells[below + right];
                result[here + x] = near == 3 || near == 2 && cells[here + x] == 1 ? 1 : 0;
            }
        }
        return result;
    }

    public static void main(String[] words) {
        int[] cells = new int[SIZE * SIZE];
        for (int i = 0; i < cells.length; i++) {
            cells[i] = i * 7 % 11 < 4 ? 1 : 0;
        }
        for (int round = 0; round < 60; round++) {
            cells = next(cells);
        }
        int alive = 0;
        for (int i = 0; i < cells.length; i++) {
            alive += cells[i];
        }
        System.out.println(alive);
    }
}
