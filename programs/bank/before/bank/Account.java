package bank;

/** An account, that several tellers change. */
public class Account {
    private final String owner;
    private long balance;

    public Account(String owner, long balance) {
        this.owner = owner;
        this.balance = balance;
    }

    public synchronized void change(long amount) {
        balance += amount;
    }

    public synchronized long balance() {
        return balance;
    }

    @Override
    public String toString() {
        return owner + ": " + balance();
    }
}
