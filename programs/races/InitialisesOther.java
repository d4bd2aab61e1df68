/** What an initialiser wrote of another class is read by who needs the class, and by who doesn't. Races: Other.x. */
class InitialisesOther extends Thread {
    boolean needs;

    public void run() {
        if (needs) {
            System.out.println(Maker.y);
        }
        System.out.println(Other.x);
    }

    public static void main(String[] args) throws InterruptedException {
        Other.x = 1;
        InitialisesOther first = new InitialisesOther();
        InitialisesOther second = new InitialisesOther();
        first.needs = true;
        first.start();
        second.start();
        first.join();
        second.join();
    }
}

class Other {
    static int x;
}

class Maker {
    static int y = made();

    static int made() {
        Other.x = 2;
        return 1;
    }
}
