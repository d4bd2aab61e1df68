/** Each of two threads makes its own words and prints them in one piece. Races. */
class Speakers extends Thread {
    final int number;

    Speakers(int number) {
        this.number = number;
    }

    public void run() {
        String name = "speaker ".concat(String.valueOf(number));
        System.out.println(name.concat(" speaks"));
    }

    public static void main(String[] args) {
        new Speakers(1).start();
        new Speakers(2).start();
    }
}
