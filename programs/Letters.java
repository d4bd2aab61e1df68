/** Chars and ints stand in one line, until a println ends it. */
class Letters {
    static char letter = 'a';

    static char next() {
        return letter++;
    }

    public static void main(String[] args) {
        for (int i = 0; i < 26; i++) {
            System.out.print(next());
        }
        System.out.println();
        System.out.println();
        System.out.print(-2147483648);
        System.out.print(' ');
        System.out.print((int) 'a');
        System.out.print((char) 0x10041);
        System.out.println('!');
        System.out.print(0);
        System.out.print('\n');
        System.out.print('\t');
        System.out.println(2147483647);
    }
}
