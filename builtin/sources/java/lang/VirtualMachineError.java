package java.lang;

/** The machine fails (JVMS 6.3). */
public abstract class VirtualMachineError extends Error {
    public VirtualMachineError() {}

    public VirtualMachineError(String message) {}

    public VirtualMachineError(String message, Throwable cause) {}

    public VirtualMachineError(Throwable cause) {
        super(cause);
    }
}
