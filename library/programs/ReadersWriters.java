import java.util.concurrent.atomic.AtomicInteger;
import java.util.concurrent.locks.ReadWriteLock;
import java.util.concurrent.locks.ReentrantReadWriteLock;

/** Readers and a writer of two numbers that belong together. */
class ReadersWriters {
    public static void main(String[] args) throws Exception {
        final ReadWriteLock lock = new ReentrantReadWriteLock();
        final int[] pair = new int[2];
        final AtomicInteger torn = new AtomicInteger();
        Thread writer = new Thread() {
            public void run() {
                for (int i = 0; i < 5; i++) {
                    lock.writeLock().lock();
                    try {
                        pair[0]++;
                        pair[1]++;
                    } finally {
                        lock.writeLock().unlock();
                    }
                }
            }
        };
        Thread[] readers = new Thread[2];
        writer.start();
        for (int r = 0; r < 2; r++) {
            readers[r] = new Thread() {
                public void run() {
                    for (int i = 0; i < 5; i++) {
                        lock.readLock().lock();
                        try {
                            if (pair[0] != pair[1]) {
                                torn.incrementAndGet();
                            }
                        } finally {
                            lock.readLock().unlock();
                        }
                    }
                }
            };
            readers[r].start();
        }
        writer.join();
        readers[0].join();
        readers[1].join();
        System.out.println(torn.get());
        System.out.println(pair[1]);
    }
}
