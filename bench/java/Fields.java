/** A list of objects that is made, and then gone through; each pass reads and writes a field of each object. */
public class Fields {
    int value;
    Fields next;

    static Fields list(int length) {
        Fields first = null;
        for (int i = 0; i < length; i++) {
            Fields made = new Fields();
            made.value = i;
            made.next = first;
            first = made;
        }
        return first;
    }

    public static void main(String[] words) {
        Fields first = list(20000);
        int sum = 0;
        for (int pass = 0; pass < 6; pass++) {
            for (Fields at = first; at != null; at = at.next) {
                at.value += pass;
                sum += at.value;
            }
        }
        System.out.println(sum);
    }
}
