import java.io.FileNotFoundException;
import java.io.IOException;
import java.io.UncheckedIOException;
import java.util.ConcurrentModificationException;
import java.util.EmptyStackException;
import java.util.InputMismatchException;
import java.util.NoSuchElementException;
import java.util.Objects;
import java.util.Stack;
import java.util.ArrayList;
import java.util.Arrays;
import java.util.Collections;
import java.util.Random;
import java.util.concurrent.ArrayBlockingQueue;
import java.util.concurrent.BrokenBarrierException;
import java.util.concurrent.Callable;
import java.util.concurrent.CancellationException;
import java.util.concurrent.CountDownLatch;
import java.util.concurrent.ExecutionException;
import java.util.concurrent.FutureTask;
import java.util.concurrent.RejectedExecutionException;
import java.util.concurrent.TimeoutException;

/** The exceptions of the library: their messages, causes and texts. */
class ExceptionMessages {
    /** What throws something. */
    abstract static class Trial {
        abstract void run() throws Exception;

        Trial() {
            try {
                run();
                System.out.println("nothing");
            } catch (Exception thrown) {
                System.out.println(thrown);
            }
        }
    }

    static void show(Throwable thrown) {
        System.out.println(thrown + " " + thrown.getMessage() + " " + thrown.getCause());
    }

    static void constructed() {
        Throwable cause = new IOException("lost");
        show(new NumberFormatException());
        show(new NumberFormatException("n"));
        show(new UnsupportedOperationException("u", cause));
        show(new UnsupportedOperationException(cause));
        show(new ClassNotFoundException("c", cause));
        show(new ClassNotFoundException("c").getException() == null ? new ClassNotFoundException() : null);
        show(new SecurityException("s"));
        show(new OutOfMemoryError("o"));
        show(new IOException("i", cause));
        show(new IOException(cause));
        show(new FileNotFoundException("f"));
        show(new UncheckedIOException(new IOException("i")));
        show(new UncheckedIOException("u", new IOException()));
        show(new NoSuchElementException("n"));
        show(new InputMismatchException("m"));
        show(new ConcurrentModificationException("c", cause));
        show(new EmptyStackException());
        show(new BrokenBarrierException("b"));
        show(new TimeoutException("t"));
        show(new CancellationException("c"));
        show(new RejectedExecutionException(cause));
        show(new ExecutionException("e", cause));
        show(new ExecutionException(cause));
        System.out.println(new FileNotFoundException() instanceof IOException);
        System.out.println(new InputMismatchException() instanceof NoSuchElementException);
    }

    public static void main(String[] args) {
        constructed();
        new Trial() {
            void run() {
                Math.addExact(0x7fffffff, 1);
            }
        };
        new Trial() {
            void run() {
                Math.negateExact(0x80000000);
            }
        };
        new Trial() {
            void run() {
                Objects.requireNonNull(null, "no name");
            }
        };
        new Trial() {
            void run() {
                new Stack<String>().pop();
            }
        };
        new Trial() {
            void run() {
                new ArrayList<String>(-1);
            }
        };
        new Trial() {
            void run() {
                Arrays.asList("a", "b", "c").subList(2, 1);
            }
        };
        new Trial() {
            void run() {
                new ArrayList<String>(Arrays.asList("a", "b", "c")).subList(-1, 1);
            }
        };
        new Trial() {
            void run() {
                Collections.nCopies(-1, "a");
            }
        };
        new Trial() {
            void run() {
                Arrays.fill(new int[3], 2, 1, 0);
            }
        };
        new Trial() {
            void run() {
                Arrays.copyOfRange(new int[3], 2, 1);
            }
        };
        new Trial() {
            void run() {
                new Random().nextInt(0);
            }
        };
        new Trial() {
            void run() {
                new CountDownLatch(-1);
            }
        };
        new Trial() {
            void run() {
                ArrayBlockingQueue<String> queue = new ArrayBlockingQueue<String>(1);
                queue.add("a");
                queue.add("b");
            }
        };
        new Trial() {
            void run() throws Exception {
                FutureTask<String> task = new FutureTask<String>(new Callable<String>() {
                    public String call() {
                        throw new IllegalStateException("x");
                    }
                });
                task.run();
                task.get();
            }
        };
    }
}
