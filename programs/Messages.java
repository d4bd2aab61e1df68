/** Exceptions that are made with a message, or with a message and a cause: their class is what counts. */
class Messages extends Thread {
    static class Refused extends Exception {
        final int by;

        Refused(String message, int by) {
            super(message);
            this.by = by;
        }
    }

    static class Worse extends RuntimeException {
        Worse(String message, Throwable cause) {
            super(message, cause);
        }
    }

    final int number;

    Messages(int number) {
        this.number = number;
    }

    static void refuse(int by) throws Refused {
        throw new Refused("by ".concat(String.valueOf(by)), by);
    }

    static void fail(int number) {
        try {
            refuse(number);
        } catch (Refused refused) {
            throw new Worse(null, refused);
        }
    }

    public void run() {
        switch (number) {
            case 1:
                throw new IllegalStateException("one");
            case 2:
                throw new RuntimeException("two", new Exception("within"));
            case 3:
                throw new AssertionError();
            case 4:
                throw new AssertionError("four", null);
            default:
                fail(number);
        }
    }

    public static void main(String[] args) throws InterruptedException {
        try {
            refuse(7);
        } catch (Refused refused) {
            System.out.println(refused.by);
        }
        try {
            throw new StringIndexOutOfBoundsException(null);
        } catch (IndexOutOfBoundsException outside) {
            System.out.println("outside");
        }
        for (int number = 1; number <= 5; number++) {
            Thread thread = new Messages(number);
            thread.start();
            thread.join();
        }
        throw new StackOverflowError("main");
    }
}
