package bank.tellers;

import bank.Account;
import bank.Kind;

/** A teller, who serves customers one after another. */
public class Teller implements Runnable {
    private final Account account;
    private final int customers;

    public Teller(Account account, int customers) {
        this.account = account;
        this.customers = customers;
    }

    private class Desk {
        void serve(int kind) {
            account.change(kind == Kind.DEPOSIT ? 2 : -1);
        }
    }

    @Override
    public void run() {
        Desk desk = new Desk();
        for (int i = 0; i < customers; i++) {
            for (int kind : Kind.values()) {
                desk.serve(kind);
            }
        }
    }
}
