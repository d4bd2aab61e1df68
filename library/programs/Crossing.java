import java.util.ArrayList;
import java.util.List;

/** Cars of two roads at a light, whose plan is a clone that each phase may change. */
class Crossing {
    enum Light {
        RED("stop"), GREEN("go"), AMBER("slow") {
            Light next() {
                return RED;
            }
        };

        private final String word;

        Light(String word) {
            this.word = word;
        }

        Light next() {
            return values()[ordinal() + 1];
        }

        String word() {
            return word;
        }
    }

    static class Plan implements Cloneable {
        private final String road;
        private int[] seconds = {30, 20, 3};

        Plan(String road) {
            this.road = road;
        }

        Plan copy() throws CloneNotSupportedException {
            Plan copied = (Plan) clone();
            copied.seconds = seconds.clone();
            return copied;
        }

        int of(Light light) {
            switch (light) {
                case GREEN:
                    return seconds[1];
                case AMBER:
                    return seconds[2];
                default:
                    return seconds[0];
            }
        }
    }

    static class Lights {
        private Light light = Light.RED;
        private final List<String> log = new ArrayList<String>();

        synchronized void pass(String car) throws InterruptedException {
            while (light != Light.GREEN) {
                wait();
            }
            log.add(car);
            notifyAll();
        }

        synchronized void change() {
            light = light.next();
            notifyAll();
        }

        synchronized void awaitCars(int count) throws InterruptedException {
            while (log.size() < count) {
                wait();
            }
        }

        synchronized int passed() {
            return log.size();
        }
    }

    static class Car extends Thread {
        private final Lights lights;

        Car(Lights lights, String name) {
            super(name);
            this.lights = lights;
        }

        public void run() {
            try {
                lights.pass(getName());
            } catch (InterruptedException gone) {
                System.out.println(getName() + " turned back");
            }
        }
    }

    public static void main(String[] args) throws Exception {
        Plan plan = new Plan("main road");
        Plan night = plan.copy();
        night.seconds[0] = 5;
        for (Light light : Light.values()) {
            System.out.println(light + " " + light.word() + " " + plan.of(light) + " " + night.of(light));
        }
        System.out.println(night.road == plan.road);
        Lights lights = new Lights();
        Car[] cars = {new Car(lights, "van"), new Car(lights, "bus"), new Car(lights, "cab")};
        for (Car car : cars.clone()) {
            car.start();
        }
        System.out.println(lights.light + ", passed: " + lights.passed());
        lights.change();
        lights.awaitCars(2);
        lights.awaitCars(3);
        lights.change();
        for (Car car : cars) {
            car.join();
        }
        System.out.println(lights.light + ", passed: " + lights.passed());
        lights.change();
        System.out.println(lights.light == Light.valueOf("RED"));
        Car late = new Car(lights, "tram");
        late.start();
        late.interrupt();
        late.join();
        System.out.println(Light.AMBER.compareTo(Light.RED) + " " + Light.AMBER.getClass().equals(Light.class));
    }
}
