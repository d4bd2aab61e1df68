/** A thread loops until another one raises a flag: some run of it never ends, and each state may end. No kind. */
class FlagThatIsSet extends Thread {
    static volatile int flag;

    public void run() {
        flag = 1;
    }

    public static void main(String[] args) {
        new FlagThatIsSet().start();
        while (flag == 0) {
            Thread.yield();
        }
        System.out.println(1);
    }
}
