/*
 * Threads: `java.util.concurrent.atomic`
 *
 * Atomics.java: the field java.util.concurrent.atomic.AtomicInteger COUNT: the class
 *     java.util.concurrent.atomic.AtomicInteger: write a class with synchronized methods
 * Atomics.java:15: the class java.util.concurrent.atomic.AtomicInteger: write a class with synchronized methods
 * Atomics.java:12: the class java.util.concurrent.atomic.AtomicInteger: write a class with synchronized methods
 */
import java.util.concurrent.atomic.AtomicInteger;

class Atomics {
    static final AtomicInteger COUNT = new AtomicInteger();

    public static void main(String[] words) {
        System.out.println(COUNT.incrementAndGet());
    }
}
