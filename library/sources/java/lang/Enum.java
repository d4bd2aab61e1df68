package java.lang;

import java.io.Serializable;

/**
 * What each enum extends. The constants of all enums stand in a chain, where `valueOf` looks for one: it finds those of
 * an enum that is initialised. Without getDeclaringClass, EnumSet and EnumMap.
 */
public abstract class Enum<E extends Enum<E>> implements Comparable<E>, Serializable {
    /** The constant that was made last, of whichever enum. */
    private static volatile Enum<?> last;

    private final String name;

    private final int ordinal;

    /** The constant that was made before this one. */
    private final Enum<?> before;

    protected Enum(String name, int ordinal) {
        this.name = name;
        this.ordinal = ordinal;
        synchronized (Enum.class) {
            before = last;
            last = this;
        }
    }

    public final String name() {
        return name;
    }

    public final int ordinal() {
        return ordinal;
    }

    public String toString() {
        return name;
    }

    public final boolean equals(Object other) {
        return this == other;
    }

    public final int hashCode() {
        return super.hashCode();
    }

    protected final Object clone() throws CloneNotSupportedException {
        throw new CloneNotSupportedException();
    }

    public final int compareTo(E other) {
        Enum<?> compared = other;
        if (getClass() != compared.getClass() && !enumName().equals(compared.enumName())) {
            throw new ClassCastException();
        }
        return ordinal - compared.ordinal;
    }

    @SuppressWarnings("unchecked")
    public static <T extends Enum<T>> T valueOf(Class<T> type, String name) {
        String searched = type.getName();
        if (name == null) {
            throw new NullPointerException("Name is null");
        }
        for (Enum<?> found = last; found != null; found = found.before) {
            if (name.equals(found.name) && searched.equals(found.enumName())) {
                return (T) found;
            }
        }
        throw new IllegalArgumentException("No enum constant " + searched.replace('$', '.') + "." + name);
    }

    /** The class that declares the constant. One with a body is of a class of its own, with a number behind a `$`. */
    private String enumName() {
        String own = getClass().getName();
        int place = own.lastIndexOf('$');
        return place >= 0 && own.charAt(place + 1) <= '9' ? own.substring(0, place) : own;
    }
}
