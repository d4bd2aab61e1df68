/** Two accounts: a transfer locks the one that gives and then the one that takes. Races. */
class OppositeOrders {
    private int amount = 100;

    void give(OppositeOrders taker, int part) {
        synchronized (this) {
            amount -= part;
            synchronized (taker) {
                taker.amount += part;
            }
        }
    }

    public static void main(String[] args) throws InterruptedException {
        final OppositeOrders here = new OppositeOrders();
        final OppositeOrders there = new OppositeOrders();
        Thread back = new Thread() {
            public void run() {
                there.give(here, 5);
            }
        };
        back.start();
        here.give(there, 30);
        back.join();
        System.out.println(here.amount);
        System.out.println(there.amount);
    }
}
