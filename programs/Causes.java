/** Messages and causes of exceptions, and the exceptions that tell of wrong ones. */
class Causes {
    static class Failure extends Exception {
        Failure(String message) {
            super(message);
        }

        Failure(Throwable cause) {
            super(cause);
        }

        public String getLocalizedMessage() {
            return "localised " + getMessage();
        }
    }

    static void show(Throwable thrown) {
        System.out.println(thrown);
        System.out.println(thrown.getMessage());
        for (Throwable cause = thrown.getCause(); cause != null; cause = cause.getCause()) {
            System.out.println("because of " + cause);
        }
    }

    static void sets(Throwable thrown, Throwable cause) {
        try {
            System.out.println(thrown.initCause(cause) == thrown);
        } catch (IllegalStateException refused) {
            show(refused);
        } catch (IllegalArgumentException refused) {
            show(refused);
        }
    }

    static void divides(int by) {
        try {
            System.out.println(7 / by);
            System.out.println(7 % by);
        } catch (ArithmeticException thrown) {
            show(thrown);
        }
    }

    public static void main(String[] words) {
        show(new Throwable());
        show(new Error("an error"));
        show(new IllegalStateException("closed", new Failure("inner")));
        show(new RuntimeException(new Failure("inner")));
        show(new Failure((Throwable) null));
        show(new Exception((String) null));
        show(new IllegalArgumentException(new RuntimeException(new Failure("deep"))));
        sets(new Throwable("first"), new Failure("later"));
        sets(new Throwable(new Failure("sooner")), new Failure("later"));
        sets(new Throwable(new Failure("sooner")), null);
        Throwable own = new Throwable("own");
        sets(own, own);
        show(new AssertionError());
        show(new AssertionError("told"));
        show(new AssertionError(new Failure("inner")));
        show(new AssertionError(7));
        show(new AssertionError('c'));
        show(new AssertionError(true));
        show(new AssertionError("both", own));
        show(new ArrayIndexOutOfBoundsException(7));
        show(new StringIndexOutOfBoundsException(-7));
        show(new ExceptionInInitializerError(own));
        show(new ExceptionInInitializerError("message"));
        System.out.println(new ExceptionInInitializerError(own).getException() == own);
        System.out.println(own.fillInStackTrace() == own);
        divides(0);
        divides(2);
        try {
            int size = -1;
            int[] none = new int[size];
        } catch (NegativeArraySizeException thrown) {
            System.out.println(thrown.getCause() == null);
        }
    }
}
