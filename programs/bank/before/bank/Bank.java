package bank;

import bank.tellers.Teller;

/** Two tellers work at one account. */
public class Bank {
    public static void main(String[] args) throws InterruptedException {
        Account account = new Account("Ada", 100);
        Teller one = new Teller(account, 2);
        Teller two = new Teller(account, 2);
        Thread first = new Thread(() -> one.work());
        Thread second = new Thread(two::work);
        first.start();
        second.start();
        first.join();
        second.join();
        System.out.println("in the end " + account);
    }
}
