/** A thread loops for ever, while a flag is down that no thread raises. Kinds: endless. */
class LoopsForEver extends Thread {
    static int flag;

    public void run() {
        while (flag == 0) {
            Thread.yield();
        }
    }

    public static void main(String[] args) {
        new LoopsForEver().start();
        System.out.println(1);
    }
}
