package bank;

/** What a customer wants. */
public final class Kind {
    public static final int DEPOSIT = 0;
    public static final int WITHDRAWAL = 1;
    static final int[] VALUES = {DEPOSIT, WITHDRAWAL};

    private Kind() {}

    public static int[] values() {
        return VALUES;
    }
}
