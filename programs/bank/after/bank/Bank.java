package bank;

import bank.tellers.Teller;

/** Two tellers work at one account. */
public class Bank {
    public static void main(String[] args) throws InterruptedException {
        Account account = new Account(100);
        Thread first = new Thread(new Teller(account, 2));
        Thread second = new Thread(new Teller(account, 2));
        first.start();
        second.start();
        first.join();
        second.join();
        System.out.println(account.balance());
    }
}
