package bank;

/** An account, that several tellers change. */
public class Account {
    private int balance;

    public Account(int balance) {
        this.balance = balance;
    }

    public synchronized void change(int amount) {
        balance += amount;
    }

    public synchronized int balance() {
        return balance;
    }
}
