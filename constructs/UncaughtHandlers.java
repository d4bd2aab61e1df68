/*
 * Threads: handlers of uncaught exceptions
 *
 * UncaughtHandlers.java: the class java.lang.Thread$UncaughtExceptionHandler: catch the exception in run()
 * UncaughtHandlers.java:14: java.lang.Thread.setUncaughtExceptionHandler(java.lang.Thread$UncaughtExceptionHandler):
 *     catch the exception in run()
 */
class UncaughtHandlers implements Thread.UncaughtExceptionHandler {
    public void uncaughtException(Thread thread, Throwable thrown) {
        System.out.println(7);
    }

    public static void main(String[] words) {
        Thread.currentThread().setUncaughtExceptionHandler(new UncaughtHandlers());
    }
}
