/*
 * Threads: `java.util.concurrent.locks`
 *
 * Locks.java:13: the class java.util.concurrent.locks.ReentrantLock: take synchronized, wait() and notifyAll()
 * Locks.java:14: the class java.util.concurrent.locks.Lock: take synchronized, wait() and notifyAll()
 * Locks.java:15: the class java.util.concurrent.locks.Lock: take synchronized, wait() and notifyAll()
 */
import java.util.concurrent.locks.Lock;
import java.util.concurrent.locks.ReentrantLock;

class Locks {
    public static void main(String[] words) {
        Lock lock = new ReentrantLock();
        lock.lock();
        lock.unlock();
    }
}
