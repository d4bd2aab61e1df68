/** Exceptions that are caught are told on System.err, in words that are joined; one that isn't ends its thread. */
class Reported extends Thread {
    final int[] shares;
    int sum;

    Reported(int[] shares) {
        this.shares = shares;
    }

    static int share(int all, int count) {
        try {
            return all / count;
        } catch (ArithmeticException none) {
            System.err.println("no share of " + all + " for " + count);
            return -1;
        } finally {
            System.out.println(all + "/" + count);
        }
    }

    public void run() {
        String told = "shares";
        for (int at = 0; at <= shares.length; at++) {
            try {
                sum += share(12, shares[at]);
                told += " " + sum;
            } catch (ArrayIndexOutOfBoundsException end) {
                System.err.println(told + " and no share " + at);
            }
        }
    }

    public static void main(String[] args) throws InterruptedException {
        Reported other = new Reported(new int[] {3, 0, 5});
        other.start();
        other.join();
        System.out.println("sum " + other.sum + (other.isAlive() ? " so far" : " at last"));
        System.err.print("now a fault");
        System.err.println();
        throw new IllegalStateException("sum " + other.sum);
    }
}
