/** In how many ways ten queens stand on a board so that none takes another. */
public class Queens {
    static int ways(int size, int row, int columns, int left, int right) {
        if (row == size) {
            return 1;
        }
        int count = 0;
        for (int column = 0; column < size; column++) {
            int place = 1 << column;
            if ((place & (columns | left | right)) == 0) {
                count += ways(size, row + 1, columns | place, (left | place) << 1, (right | place) >> 1);
            }
        }
        return count;
    }

    public static void main(String[] words) {
        System.out.println(ways(10, 0, 0, 0, 0));
    }
}
