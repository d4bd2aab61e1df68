/** Exceptions beside others, and initialisers that fail. */
class Beside {
    static class Broken {
        static int value = fails();

        static int fails() {
            throw new IllegalStateException("no value");
        }
    }

    static void show(Throwable thrown) {
        Throwable[] others = thrown.getSuppressed();
        System.out.println(thrown + " " + others.length);
        for (Throwable other : others) {
            System.out.println("beside " + other);
        }
    }

    static void closes(int faults) throws Exception {
        Exception first = null;
        for (int fault = 0; fault < faults; fault++) {
            Exception next = new Exception("fault " + fault);
            if (first == null) {
                first = next;
            } else {
                first.addSuppressed(next);
            }
        }
        if (first != null) {
            throw first;
        }
    }

    public static void main(String[] words) throws Exception {
        for (int faults = 0; faults < 4; faults++) {
            try {
                closes(faults);
            } catch (Exception thrown) {
                show(thrown);
            }
        }
        Throwable one = new Throwable("one");
        one.getSuppressed();
        one.addSuppressed(new Error("other"));
        one.getSuppressed()[0] = null;
        show(one);
        try {
            one.addSuppressed(one);
        } catch (IllegalArgumentException thrown) {
            System.out.println(thrown.getMessage() + " " + (thrown.getCause() == one));
        }
        try {
            one.addSuppressed(null);
        } catch (NullPointerException thrown) {
            System.out.println(thrown.getMessage());
        }
        try {
            System.out.println(Broken.value);
        } catch (ExceptionInInitializerError thrown) {
            System.out.println(thrown + " " + thrown.getMessage());
            System.out.println(thrown.getCause());
            System.out.println(thrown.getException() == thrown.getCause());
        }
    }
}
