/** Threads append to one StringBuilder while they hold its monitor; none of what they append is lost. */
class Gathered extends Thread {
    static final StringBuilder ALL = new StringBuilder("=");
    static int done;

    final char sign;

    Gathered(char sign) {
        this.sign = sign;
    }

    public void run() {
        for (int count = 0; count < 3; count++) {
            synchronized (ALL) {
                ALL.append(sign).append(count);
            }
        }
        synchronized (ALL) {
            done++;
            ALL.notifyAll();
        }
    }

    static int countOf(char sign) {
        int count = 0;
        for (int at = 0; at < ALL.length(); at++) {
            count += ALL.charAt(at) == sign ? 1 : 0;
        }
        return count;
    }

    public static void main(String[] args) throws InterruptedException {
        new Gathered('a').start();
        new Gathered('b').start();
        synchronized (ALL) {
            while (done < 2) {
                ALL.wait();
            }
            System.out.println(ALL.length() + " " + countOf('a') + countOf('b') + countOf('=') + " " + countOf('2'));
        }
    }
}
