import java.util.ArrayList;
import java.util.LinkedHashMap;
import java.util.List;
import java.util.Map;

/** Accounts with a history, and transfers that fail with an exception whose cause is told, too. */
class Ledger {
    static class InsufficientFundsException extends Exception {
        private final int missing;

        InsufficientFundsException(String owner, int missing) {
            super(owner + " lacks " + missing);
            this.missing = missing;
        }

        int missing() {
            return missing;
        }
    }

    static class TransferException extends Exception {
        TransferException(String message, Throwable cause) {
            super(message, cause);
        }
    }

    static class Account {
        private final String owner;
        private int balance;
        private final List<String> history = new ArrayList<String>();

        Account(String owner, int balance) {
            if (balance < 0) {
                throw new IllegalArgumentException("negative balance: " + balance);
            }
            this.owner = owner;
            this.balance = balance;
        }

        synchronized void withdraw(int amount) throws InsufficientFundsException {
            if (amount > balance) {
                throw new InsufficientFundsException(owner, amount - balance);
            }
            balance -= amount;
            history.add("-" + amount);
        }

        synchronized void deposit(int amount) {
            balance += amount;
            history.add("+" + amount);
        }

        @Override
        public String toString() {
            return String.valueOf(balance) + history;
        }
    }

    private final Map<String, Account> accounts = new LinkedHashMap<String, Account>();

    void open(String owner, int balance) {
        if (accounts.putIfAbsent(owner, new Account(owner, balance)) != null) {
            throw new IllegalStateException(owner + " has an account");
        }
    }

    void transfer(String from, String to, int amount) throws TransferException {
        try {
            accounts.get(from).withdraw(amount);
            accounts.get(to).deposit(amount);
        } catch (InsufficientFundsException poor) {
            throw new TransferException("no transfer of " + amount + " to " + to, poor);
        } finally {
            System.out.println(accounts);
        }
    }

    public static void main(String[] args) {
        Ledger bank = new Ledger();
        bank.open("ann", 100);
        bank.open("bob", 20);
        int[] amounts = {30, 80, 50};
        for (int amount : amounts) {
            try {
                bank.transfer("ann", "bob", amount);
            } catch (TransferException failed) {
                InsufficientFundsException cause = (InsufficientFundsException) failed.getCause();
                System.out.println(failed.getMessage() + ": " + cause + " (" + cause.missing() + ")");
            }
        }
        try {
            bank.open("bob", 1);
        } catch (IllegalStateException twice) {
            System.out.println(twice);
        }
        try {
            bank.open("cy", -1);
        } catch (IllegalArgumentException negative) {
            System.out.println(negative);
        }
    }
}
