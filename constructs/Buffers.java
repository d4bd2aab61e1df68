/*
 * Strings and output: `StringBuffer`
 *
 * Buffers.java:8: the class java.lang.StringBuffer: take StringBuilder
 */
class Buffers {
    public static void main(String[] words) {
        StringBuffer buffer = new StringBuffer();
    }
}
