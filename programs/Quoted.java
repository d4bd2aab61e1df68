/** What a trace tells behind a backslash, and what it tells by its number. */
class Quoted {
    public static void main(String[] args) {
        System.out.print('"');
        System.out.println('\\');
        System.out.print('~');
        System.out.print('\t');
        System.out.print((char) 127);
        System.out.print('\u00e9');
        System.out.print('\ud83d');
        System.out.println('\n');
        System.out.print(-5);
        System.out.println();
        System.out.println(-5);
    }
}
