// accepted
/** A method of an array class. */
final class ClonesArray {
    public static void main(String[] args) {
        int[] ints = new int[2];
        ints = ints.clone();
    }
}
