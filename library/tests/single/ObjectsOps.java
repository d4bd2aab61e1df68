import java.util.Objects;
import java.util.concurrent.ExecutionException;
import java.util.NoSuchElementException;
import java.util.concurrent.TimeoutException;
import java.util.Comparator;

/** Objects, and exceptions with messages. */
class ObjectsOps {
    static void print(int number) {
        System.out.println(number);
    }

    static void print(boolean is) {
        System.out.println(is ? 1 : 0);
    }

    public static void main(String[] args) throws Exception {
        Object one = new Object();
        print(Objects.equals(null, null));
        print(Objects.equals(one, null));
        print(Objects.equals(null, one));
        print(Objects.equals(one, one));
        print(Objects.equals(1000, 1000));
        print(Objects.equals(1000, 'x'));
        print(Objects.hash(1, 2, 3));
        print(Objects.hashCode(null));
        print(Objects.isNull(one));
        print(Objects.nonNull(one));
        print(Objects.requireNonNull(one) == one);
        try {
            Objects.requireNonNull(null, "text");
        } catch (NullPointerException none) {
            print(-1);
        }
        Throwable cause = new IllegalStateException();
        ExecutionException failed = new ExecutionException(cause);
        print(failed.getCause() == cause);
        try {
            throw new NoSuchElementException("gone");
        } catch (RuntimeException none) {
            print(none instanceof NoSuchElementException);
        }
        print(new NoSuchElementException("gone").getMessage() == "gone");
        print(new TimeoutException().getMessage() == null);
        print(new UnsupportedOperationException("no").getMessage() == "no");
    }
}
