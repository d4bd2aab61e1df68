package bank.tellers;

import bank.Account;
import bank.Kind;

/** A teller, who serves customers one after another. */
public class Teller {
    private final Account account;
    private final int customers;

    public Teller(Account account, int customers) {
        this.account = account;
        this.customers = customers;
    }

    private class Desk {
        void serve(Kind kind) {
            account.change(kind == Kind.DEPOSIT ? 2 : -1);
        }
    }

    public void work() {
        Desk desk = new Desk();
        for (int i = 0; i < customers; i++) {
            for (Kind kind : Kind.values()) {
                desk.serve(kind);
            }
            try {
                Thread.sleep(10);
            } catch (InterruptedException interrupted) {
                return;
            }
        }
    }
}
