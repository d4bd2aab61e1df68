/** Two threads add to one StringBuilder without a lock: what stands between is as the turns go. Races. */
class Chorus extends Thread {
    static final StringBuilder ALL = new StringBuilder();

    final char voice;

    Chorus(char voice) {
        this.voice = voice;
    }

    public void run() {
        ALL.append(voice).append(1);
        ALL.append(voice + "2").append(';');
    }

    public static void main(String[] args) throws InterruptedException {
        Chorus high = new Chorus('h');
        Chorus low = new Chorus('l');
        high.start();
        low.start();
        high.join();
        low.join();
        System.out.println(ALL.toString());
    }
}
