/** An object is handed over through a field that is not volatile. Races: Published.made, Published.n. */
class Published extends Thread {
    static Published made;
    int n;

    public void run() {
        Published seen = made;
        if (seen != null) {
            System.out.println(seen.n);
        }
    }

    public static void main(String[] args) throws InterruptedException {
        Thread reader = new Published();
        reader.start();
        Published one = new Published();
        one.n = 1;
        made = one;
        reader.join();
    }
}
