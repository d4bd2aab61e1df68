package java.lang;

/** What may be cloned. */
public interface Cloneable {}
