import java.util.concurrent.locks.ReentrantLock;

/** Two threads move money between accounts, each locked by a ReentrantLock; none is lost. */
class BankTransfer {
    static class Account {
        final ReentrantLock lock = new ReentrantLock();
        final int number;
        int balance;

        Account(int number, int balance) {
            this.number = number;
            this.balance = balance;
        }

        void moveTo(Account other, int amount) {
            Account first = number < other.number ? this : other;
            Account second = first == this ? other : this;
            first.lock.lock();
            second.lock.lock();
            try {
                balance -= amount;
                other.balance += amount;
            } finally {
                second.lock.unlock();
                first.lock.unlock();
            }
        }
    }

    public static void main(String[] args) throws Exception {
        final Account a = new Account(1, 100);
        final Account b = new Account(2, 50);
        Thread there = new Thread() {
            public void run() {
                for (int i = 0; i < 10; i++) {
                    a.moveTo(b, 3);
                }
            }
        };
        Thread back = new Thread() {
            public void run() {
                for (int i = 0; i < 10; i++) {
                    b.moveTo(a, 2);
                }
            }
        };
        there.start();
        back.start();
        there.join();
        back.join();
        System.out.println(a.balance);
        System.out.println(b.balance);
    }
}
