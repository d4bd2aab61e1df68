package java.lang;

/** The class of the objects that stand for classes (JLS 15.8.2). */
public final class Class {
    private Class() {}

    public native String getName();

    /** What stands behind the last `.` and `$` of the name, and behind digits there. */
    public String getSimpleName() {
        String name = getName();
        int dot = name.lastIndexOf('.');
        int dollar = name.lastIndexOf('$');
        int begin = dot < dollar ? dollar + 1 : dot + 1;
        while (begin < name.length() && name.charAt(begin) >= '0' && name.charAt(begin) <= '9') {
            begin++;
        }
        return name.substring(begin);
    }

    public String toString() {
        return "class ".concat(getName());
    }

    /** Assertions are on. */
    public boolean desiredAssertionStatus() {
        return true;
    }
}
