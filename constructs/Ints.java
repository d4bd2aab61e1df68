/*
 * Types and operators: `int`: arithmetic, shifts, bits, `++`, `+=`
 *
 * It works.
 */
class Ints {
    public static void main(String[] words) {
        int a = 17;
        a += 5 * (a - 3) / 2 % 7;
        a ^= a << 3 | a >>> 2 & ~a;
        System.out.println(a++ - --a);
    }
}
