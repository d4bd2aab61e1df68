/** Two classes, each of which needs the other one for its initialisation. */
class Initialisers extends Thread {
    public void run() {
        System.out.println(Left.value);
    }

    public static void main(String[] args) {
        new Initialisers().start();
        System.out.println(Right.value);
    }
}

class Left {
    static int value = Right.value + 1;
}

class Right {
    static int value = Left.value + 2;
}
