/*
 * Threads: executors, futures, queues and what else `java.util.concurrent` has
 *
 * Executors.java: the field java.util.concurrent.ExecutorService service: the class
 *     java.util.concurrent.ExecutorService: build it of threads, synchronized, wait() and notifyAll()
 * Executors.java:21: the class java.util.concurrent.Semaphore: build it of threads, synchronized, wait() and
 *     notifyAll()
 * Executors.java:22: the class java.util.concurrent.LinkedBlockingQueue: build it of threads, synchronized, wait()
 *     and notifyAll()
 * Executors.java:23: the class java.util.concurrent.ExecutorService: build it of threads, synchronized, wait() and
 *     notifyAll()
 */
import java.util.concurrent.ExecutorService;
import java.util.concurrent.LinkedBlockingQueue;
import java.util.concurrent.Semaphore;

class Executors {
    static ExecutorService service;

    public static void main(String[] words) throws InterruptedException {
        new Semaphore(1).acquire();
        new LinkedBlockingQueue<Object>().put(words);
        service.shutdown();
    }
}
