// accepted
/** Classes and interfaces over one another, with calls of each kind. */
interface Shape {
    int CORNERS = 4;

    int area();
}

interface Named {
    Named[] NONE = new Named[0];

    int number();
}

interface Drawn extends Shape, Named {
    void draw(Object on);
}

class Flaw extends RuntimeException {
    final Object cause;

    Flaw(Object cause) {
        this.cause = cause;
    }
}

abstract class Base implements Drawn {
    static int made;
    protected final int number;

    static {
        made = 100;
    }

    Base() {
        number = made++;
    }

    public int number() {
        return number;
    }

    abstract int side(int index);

    public int area() {
        return side(0) * side(1);
    }

    public synchronized void draw(Object on) {
        if (on == null) {
            throw new Flaw(this);
        }
        System.out.println(area());
    }
}

class Square extends Base {
    private final int side;

    Square(int side) {
        this.side = side;
    }

    int side(int index) {
        return side;
    }
}

final class Box extends Square {
    private Shape inner;

    Box(int side, Shape inner) {
        super(side);
        this.inner = inner;
    }

    public int area() {
        return super.area() - inner.area();
    }

    Object inner() {
        return inner;
    }
}

final class Shapes {
    static int kind(Shape shape) {
        if (shape instanceof Box) {
            return kind((Shape) ((Box) shape).inner()) + 10;
        }
        switch (shape.area()) {
            case 1:
                return 1;
            case 2:
            case 4:
                return 2;
            case 1000000:
                return 3;
            default:
                return Shape.CORNERS;
        }
    }

    static int roman(int letter) {
        switch (letter) {
            case 'I': return 1;
            case 'V': return 5;
            case 'X': return 10;
            default: return -1;
        }
    }

    static int tried(Drawn drawn, Object on) {
        try {
            drawn.draw(on);
            return 1;
        } catch (Flaw flaw) {
            return flaw.cause == drawn ? 2 : 3;
        } catch (NullPointerException e) {
            return 4;
        } finally {
            System.out.println(((Named) drawn).number());
        }
    }

    public static void main(String[] args) {
        Drawn[] all = { new Square(3), new Box(5, new Square(1)), null };
        int sum = 0;
        for (int k = 0; k < all.length; k++) {
            sum = sum * 10 + (all[k] == null ? 9 : kind(all[k]));
        }
        System.out.println(sum);
        System.out.println(tried(all[1], null) + tried(all[0], args) + tried(all[2], all));
        System.out.println(roman('X') + Named.NONE.length + Base.made);
    }
}
