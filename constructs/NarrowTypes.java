/*
 * Types and operators: `boolean`, `char`, `short`, `byte`, and casts to them
 *
 * It works.
 */
class NarrowTypes {
    public static void main(String[] words) {
        char letter = 'a';
        letter++;
        short number = (short) 70000;
        byte small = (byte) letter;
        boolean is = small > number && !(letter == 'c');
        System.out.println(is ? letter : number);
    }
}
