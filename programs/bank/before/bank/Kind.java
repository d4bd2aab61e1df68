package bank;

/** What a customer wants. */
public enum Kind {
    DEPOSIT,
    WITHDRAWAL
}
