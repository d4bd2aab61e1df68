/*
 * The library: streams and `Optional`
 *
 * Streams/Streams.class: it has a constant that came after version 49.0, as a lambda needs one
 * Streams.java:12: the class java.util.stream.IntStream: write a loop
 * Streams.java:12: a lambda or a method reference, for java.util.function.IntUnaryOperator: write an anonymous class
 */
import java.util.stream.IntStream;

class Streams {
    public static void main(String[] words) {
        System.out.println(IntStream.range(0, 7).map(n -> n * n).sum());
    }
}
