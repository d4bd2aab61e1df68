/** The last line has no end. */
class Unfinished {
    public static void main(String[] args) {
        System.out.println(1);
        System.out.print(4);
        System.out.print('2');
    }
}
