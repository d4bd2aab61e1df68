/** An object is handed over through a volatile field. No race. */
class PublishedVolatile extends Thread {
    static volatile PublishedVolatile made;
    int n;

    public void run() {
        PublishedVolatile seen = made;
        if (seen != null) {
            System.out.println(seen.n);
        }
    }

    public static void main(String[] args) throws InterruptedException {
        Thread reader = new PublishedVolatile();
        reader.start();
        PublishedVolatile one = new PublishedVolatile();
        one.n = 1;
        made = one;
        reader.join();
    }
}
