/** A thread loops until it sees a flag that is raised and lowered again: it may miss it. Kinds: endless. */
class FlagOnceSeen extends Thread {
    static volatile int flag;

    public void run() {
        flag = 1;
        flag = 0;
    }

    public static void main(String[] args) {
        new FlagOnceSeen().start();
        while (flag == 0) {
            Thread.yield();
        }
        System.out.println(1);
    }
}
