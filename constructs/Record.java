/*
 * Newer than Java 8: a record
 *
 * javac refuses it.
 */
record Record(int x) {
    public static void main(String[] words) {
        System.out.println(new Record(7).x());
    }
}
