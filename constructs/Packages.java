/*
 * Classes and interfaces: packages
 *
 * It works.
 */
package bank.accounts;

public class Packages {
    public static void main(String[] words) {
        System.out.println(7);
    }
}
