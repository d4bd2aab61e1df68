import java.util.ArrayDeque;
import java.util.ArrayList;
import java.util.Arrays;
import java.util.Collection;
import java.util.Collections;
import java.util.HashMap;
import java.util.HashSet;
import java.util.Hashtable;
import java.util.LinkedHashMap;
import java.util.LinkedHashSet;
import java.util.LinkedList;
import java.util.List;
import java.util.Map;
import java.util.Objects;
import java.util.TreeMap;
import java.util.Vector;
import java.util.concurrent.ArrayBlockingQueue;
import java.util.concurrent.ConcurrentHashMap;
import java.util.concurrent.ConcurrentLinkedQueue;
import java.util.concurrent.CopyOnWriteArrayList;
import java.util.concurrent.LinkedBlockingQueue;
import java.util.concurrent.PriorityBlockingQueue;

/** Keys and elements of a class with its own equals, hashCode, compareTo and toString. */
class UserKeys {
    static final class Point implements Comparable<Point> {
        final int x;
        final int y;

        Point(int x, int y) {
            this.x = x;
            this.y = y;
        }

        @Override
        public boolean equals(Object other) {
            if (!(other instanceof Point)) {
                return false;
            }
            Point point = (Point) other;
            return x == point.x && y == point.y;
        }

        @Override
        public int hashCode() {
            return Objects.hash(x, y);
        }

        @Override
        public int compareTo(Point other) {
            return x != other.x ? Integer.compare(x, other.x) : Integer.compare(y, other.y);
        }

        @Override
        public String toString() {
            return "(" + x + "," + y + ")";
        }
    }

    /** All of one hash code. */
    static final class Alike {
        final String name;

        Alike(String name) {
            this.name = name;
        }

        public boolean equals(Object other) {
            return other instanceof Alike && ((Alike) other).name.equals(name);
        }

        public int hashCode() {
            return 7;
        }

        public String toString() {
            return name;
        }
    }

    static Point at(int x, int y) {
        return new Point(x, y);
    }

    static void elements() {
        List<Point> points = Arrays.asList(at(2, 1), at(1, 5), at(1, 2), at(2, 1));
        List<Collection<Point>> all = new ArrayList<Collection<Point>>();
        all.add(new ArrayList<Point>(points));
        all.add(new LinkedList<Point>(points));
        all.add(new Vector<Point>(points));
        all.add(new ArrayDeque<Point>(points));
        all.add(new CopyOnWriteArrayList<Point>(points));
        all.add(new HashSet<Point>(points));
        all.add(new LinkedHashSet<Point>(points));
        all.add(new ArrayBlockingQueue<Point>(8, false, points));
        all.add(new LinkedBlockingQueue<Point>(points));
        all.add(new PriorityBlockingQueue<Point>(points));
        all.add(new ConcurrentLinkedQueue<Point>(points));
        for (Collection<Point> one : all) {
            System.out.println(one + " " + one.contains(at(1, 5)) + one.contains(at(5, 1)));
            System.out.println(one.remove(at(2, 1)) + " " + one.remove(at(9, 9)) + " " + one);
            System.out.println(one.removeAll(Arrays.asList(at(1, 2), at(0, 0))) + " " + one);
        }
        System.out.println(points.indexOf(at(2, 1)) + " " + points.lastIndexOf(at(2, 1)));
        System.out.println(Collections.frequency(points, at(2, 1)) + " " + Collections.max(points));
        System.out.println(points.equals(new LinkedList<Point>(points)) + " " + points.hashCode());
        System.out.println(new HashSet<Point>(points).equals(new LinkedHashSet<Point>(points)));
        CopyOnWriteArrayList<Point> once = new CopyOnWriteArrayList<Point>(points);
        System.out.println(once.addIfAbsent(at(1, 2)) + " " + once.addIfAbsent(at(7, 7)) + " " + once);
    }

    static void keys() {
        List<Map<Point, String>> all = new ArrayList<Map<Point, String>>();
        all.add(new HashMap<Point, String>());
        all.add(new LinkedHashMap<Point, String>());
        all.add(new TreeMap<Point, String>());
        all.add(new Hashtable<Point, String>());
        all.add(new ConcurrentHashMap<Point, String>());
        for (Map<Point, String> one : all) {
            System.out.println(one.put(at(1, 2), "a") + one.put(at(3, 4), "b") + one.put(at(1, 2), "c"));
            System.out.println(one + one.get(at(3, 4)) + one.containsKey(at(4, 3)) + one.containsValue("c"));
            System.out.println(one.putIfAbsent(at(1, 2), "d") + one.putIfAbsent(at(0, 0), "e"));
            System.out.println(one.replace(at(1, 2), "c", "f") + one.replace(at(3, 4), "g") + one.remove(at(0, 0), "x"));
            System.out.println(one.remove(at(1, 2)) + one.size() + one.equals(Collections.singletonList(one)));
            System.out.println(one.getOrDefault(at(8, 8), "none") + one.keySet().contains(at(3, 4)) + one.hashCode());
        }
        System.out.println(all.get(0).equals(all.get(3)) + " " + all.get(4).equals(all.get(1)));
    }

    static void order(Map<Object, Integer> map) {
        for (int at = 0; at < 9; at++) {
            map.put(new Alike("alike" + at), at);
        }
        System.out.println(map);
        for (int at = 0; at < 30; at++) {
            map.put(at % 3 == 0 ? "key" + at * at : at % 3 == 1 ? at(at, -at) : (Object) ("k" + (char) ('a' + at)), at);
        }
        System.out.println(map);
        for (int at = 0; at < 300; at++) {
            map.put(at * 1117 + 3, at);
        }
        System.out.println(map.keySet());
        map.remove(new Alike("alike5"));
        System.out.println(map.get(new Alike("alike6")) + " " + map.get(new Alike("alike5")) + " " + map.size());
    }

    public static void main(String[] args) {
        elements();
        keys();
        order(new HashMap<Object, Integer>());
        order(new HashMap<Object, Integer>(1));
        order(new LinkedHashMap<Object, Integer>());
        order(new Hashtable<Object, Integer>());
        order(new Hashtable<Object, Integer>(3));
        order(new ConcurrentHashMap<Object, Integer>());
        order(new ConcurrentHashMap<Object, Integer>(5));
        Map<String, Integer> few = new HashMap<String, Integer>();
        for (int at = 0; at < 13; at++) {
            few.put("number " + at, at);
            System.out.println(new HashMap<String, Integer>(few) + " " + new HashSet<String>(few.keySet()));
            System.out.println(new Hashtable<String, Integer>(few));
            System.out.println(new ConcurrentHashMap<String, Integer>(few).keySet());
            Map<String, Integer> more = new HashMap<String, Integer>(4);
            more.put("first", 1);
            more.putAll(few);
            System.out.println(more);
            more = new ConcurrentHashMap<String, Integer>();
            more.putAll(few);
            System.out.println(more);
        }
    }
}
