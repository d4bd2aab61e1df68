/*
 * Classes and interfaces: a class whose class file is not given
 *
 * Files: bank/MissingClass.class
 *
 * bank/MissingClass.java:13: the class bank.Account: its class file is not among those that are given; give it, too
 * bank/MissingClass.java:14: the class bank.Account: its class file is not among those that are given; give it, too
 */
package bank;

class MissingClass {
    public static void main(String[] words) {
        Account account = new Account();
        System.out.println(account.sum());
    }
}

class Account {
    int sum() {
        return 7;
    }
}
