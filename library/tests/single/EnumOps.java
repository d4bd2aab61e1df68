import java.util.Arrays;
import java.util.TreeMap;

/** Enums, by one thread. */
class EnumOps {
    enum Planet {
        MERCURY, VENUS, EARTH
    }

    enum Shape {
        SQUARE(4) {
            String told() {
                return "four " + super.told();
            }
        },
        CIRCLE(0),
        MERCURY(1);

        private final int corners;

        Shape(int corners) {
            this.corners = corners;
        }

        String told() {
            return name() + " " + corners;
        }

        public String toString() {
            return "<" + super.toString() + ">";
        }
    }

    static String heard(Planet planet) {
        switch (planet) {
            case VENUS:
                return "hot";
            case EARTH:
                return "ours";
            default:
                return "small";
        }
    }

    public static void main(String[] args) {
        for (Planet planet : Planet.values()) {
            System.out.println(planet.ordinal() + " " + planet + " " + planet.name() + " " + heard(planet));
        }
        for (Shape shape : Shape.values()) {
            System.out.println(shape + " " + shape.told());
        }
        Planet[] planets = Planet.values();
        planets[0] = planets[2];
        System.out.println(planets[0] + " " + Planet.values()[0] + " " + (planets == Planet.values()));
        System.out.println(Planet.valueOf("EARTH") == Planet.EARTH);
        System.out.println(Planet.valueOf("MERCURY") + " " + Shape.valueOf("MERCURY"));
        System.out.println(Enum.valueOf(Shape.class, "SQUARE").told());
        try {
            Planet.valueOf("SQUARE");
        } catch (IllegalArgumentException none) {
            System.out.println(none.getMessage());
        }
        try {
            Planet.valueOf(null);
        } catch (NullPointerException none) {
            System.out.println(none.getMessage());
        }
        System.out.println(Planet.VENUS.compareTo(Planet.EARTH) + " " + Shape.MERCURY.compareTo(Shape.SQUARE));
        try {
            Comparable mixed = Planet.VENUS;
            mixed.compareTo(Shape.SQUARE);
        } catch (ClassCastException other) {
            System.out.println("not compared");
        }
        System.out.println(Planet.VENUS.equals(Planet.VENUS) + " " + Planet.VENUS.equals(null));
        System.out.println(Planet.VENUS.hashCode() == Planet.VENUS.hashCode());
        Planet[] sorted = {Planet.EARTH, Planet.MERCURY, Planet.VENUS};
        Arrays.sort(sorted);
        System.out.println(Arrays.asList(sorted));
        TreeMap<Planet, Integer> moons = new TreeMap<Planet, Integer>();
        moons.put(Planet.EARTH, 1);
        moons.put(Planet.MERCURY, 0);
        System.out.println(moons);
        System.out.println(Shape.SQUARE.getClass() == Shape.class);
        System.out.println(Shape.CIRCLE.getClass() == Shape.class);
    }
}
