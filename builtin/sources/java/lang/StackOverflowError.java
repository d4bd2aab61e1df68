package java.lang;

/** A thread has more frames than may be (JVMS 2.5.2). */
public class StackOverflowError extends VirtualMachineError {
    public StackOverflowError() {}

    public StackOverflowError(String message) {}
}
