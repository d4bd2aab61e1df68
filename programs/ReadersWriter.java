/** Readers that may overlap and a writer that may not: what is read is never torn. */
class ReadersWriter extends Thread {
    private static int readers;
    private static boolean isWriting;
    private static int low, high, torn;
    private static final Object LOCK = ReadersWriter.class;

    static void beginRead() throws InterruptedException {
        synchronized (LOCK) {
            while (isWriting) {
                LOCK.wait();
            }
            readers++;
        }
    }

    static void endRead(boolean isTorn) {
        synchronized (LOCK) {
            torn += isTorn ? 1 : 0;
            readers--;
            LOCK.notifyAll();
        }
    }

    static void write(int value) throws InterruptedException {
        synchronized (LOCK) {
            while (isWriting || readers > 0) {
                LOCK.wait();
            }
            isWriting = true;
        }
        low = value;
        high = value;
        synchronized (LOCK) {
            isWriting = false;
            LOCK.notifyAll();
        }
    }

    public void run() {
        try {
            for (int i = 0; i < 2; i++) {
                beginRead();
                endRead(low != high);
            }
        } catch (InterruptedException e) {
            System.out.println(-1);
        }
    }

    public static void main(String[] args) throws InterruptedException {
        ReadersWriter first = new ReadersWriter();
        ReadersWriter second = new ReadersWriter();
        first.start();
        second.start();
        write(5);
        write(6);
        first.join();
        second.join();
        System.out.println(torn);
        System.out.println(low + high);
    }
}
