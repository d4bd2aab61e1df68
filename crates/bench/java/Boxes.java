// accepted
/** Type parameters, which javac erases: casts, and a method that only calls the one of another result. */
class Boxes<T extends Runnable> {
    private T held;

    interface Maker<S> {
        S make();
    }

    static final class ThreadMaker implements Maker<Thread> {
        public Thread make() {
            return new Thread();
        }
    }

    static Object last(Object... all) {
        Object last = null;
        for (Object one : all) {
            last = one;
        }
        return last;
    }

    void hold(T held) {
        this.held = held;
        this.held.run();
    }

    public static void main(String[] args) {
        Boxes<Thread> boxes = new Boxes<Thread>();
        Maker<Thread> maker = new ThreadMaker();
        boxes.hold((Thread) last(null, maker.make()));
        System.out.println(boxes.held.isAlive() ? 1 : 0);
    }
}
